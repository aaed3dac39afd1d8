/* rust_bench OPERATION FILES REPEATS: the Rust's side of the program `bench`. */
#include <stdio.h>
#include <stdlib.h>
#include <string.h>
typedef unsigned long long u64;
u64 rust_edits(u64 files, u64 repeats), rust_picks(u64 files, u64 repeats), rust_manual(u64 files, u64 repeats), rust_overlap(u64 files, u64 repeats),
    rust_lookup(u64 files, u64 repeats), rust_base(u64 files, u64 repeats), rust_cut(u64 files, u64 repeats),
    rust_write(u64 files, u64 repeats), rust_read(u64 files, u64 repeats);
static const struct {
    const char *name;
    u64 (*run)(u64, u64);
} operations[] = {{"edit", rust_edits}, {"pick", rust_picks}, {"manual", rust_manual}, {"overlap", rust_overlap},
                  {"lookup", rust_lookup}, {"base", rust_base}, {"cut", rust_cut},
                  {"write", rust_write}, {"read", rust_read}};
int main(int argc, char **argv)
{
    for (size_t i = 0; argc == 4 && i < sizeof operations / sizeof *operations; i++)
        if (strcmp(argv[1], operations[i].name) == 0) {
            printf("%llu\n", operations[i].run(strtoull(argv[2], 0, 10), strtoull(argv[3], 0, 10)));
            return 0;
        }
    fprintf(stderr, "usage: rust_bench OPERATION FILES REPEATS\n");
    return 2;
}
