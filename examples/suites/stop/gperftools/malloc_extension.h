#include "../base/test.h"
