/* A structure that has the name of another one of types_more.c. */
struct either_one {
    long number;
    char bytes[440];
};
struct either_one *seen_other_one;
