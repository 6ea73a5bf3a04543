/* Never calls malloc. */
#include "lose.h"
int main(void) { rest(); }
