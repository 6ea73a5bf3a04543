/* walk_step WALK KIND ROUNDS [fresh]: runs walk_stepped one instruction at a time through malloc, realloc, memalign and free, and lets
 * leak_walk read the heap from a core of each moment at which memory changed. What the program has must be there, and not as freed. */
#include "walk_step.h"
enum { MOST = 1 << 16, IN_HAND = 6 };
static const char *walk;
static char core_path[32];
static int said;
static struct block found[MOST], freed[MOST], own[MOST];
static int found_count, freed_count, own_count, extra_count;
static struct user_regs_struct registers;
static long moments, refused, missing, over, lost, many, unsaid, misfits, left_out, most_maps, least_maps = MOST_MAPS;

static int by_start(const void *a, const void *b)
{
    uint64_t x = ((const struct block *)a)->start, y = ((const struct block *)b)->start;
    return (x > y) - (x < y);
}
static struct block *find(struct block *list, int count, uint64_t start) { return bsearch(&start, list, count, sizeof *list, by_start); }

static void read_log(FILE *log)
{
    char line[4096];
    struct block b = { 0 };
    found_count = freed_count = 0;
    while (fgets(line, sizeof line, log) && found_count < MOST && freed_count < MOST) {
        char *plus = strrchr(line, '+');
        if (plus) sscanf(plus, "+ 0x%lx 0x%lx", &b.start, &b.size);
        if (line[0] == '@') found[found_count++] = b;
        if (line[0] == '-') freed[freed_count++] = b;
    }
    qsort(found, found_count, sizeof *found, by_start);
    qsort(freed, freed_count, sizeof *freed, by_start);
}
static int run_walk(void)
{
    int out[2], status;
    if (ftruncate(said, 0) || lseek(said, 0, SEEK_SET) || pipe(out)) exit(2);
    pid_t child = vfork();
    if (!child) {
        dup2(out[1], 1), dup2(said, 2), close(out[0]);
        execl(walk, "leak_walk", "--quiet", core_path, NULL);
        _exit(9);
    }
    close(out[1]);
    FILE *log = fdopen(out[0], "r");
    read_log(log);
    fclose(log);
    waitpid(child, &status, 0);
    return WIFEXITED(status) ? WEXITSTATUS(status) : -1;
}
static int is_there(const struct block *b)
{
    const struct block *f = find(found, found_count, b->start);
    return f && f->size >= b->size;
}
static int is_over(const struct block *b)
{
    int i = 0;
    while (i < freed_count && freed[i].start + freed[i].size <= b->start) i++;
    return i < freed_count && b->size && freed[i].start < b->start + b->size;
}
static void tell(const char *what, uint64_t start)
{
    printf("%s: block 0x%lx, instruction at 0x%llx, realloc has 0x%lx\n", what, start, registers.rip, truth->moving.start);
}
static void tell_refusal(void)
{
    char line[1000] = "";
    if (pread(said, line, sizeof line - 1, 0) > 0) printf("refused at 0x%llx: %s", registers.rip, line);
}
/* Blocks that the walk has, and neither the program nor the C library itself. */
static void count_extra(void)
{
    int held = 0, its_own = 0;
    for (int i = 0; i < SLOTS; i++)
        held += truth->held[i].start && find(found, found_count, truth->held[i].start);
    for (int i = 0; i < own_count; i++)
        its_own += find(found, found_count, own[i].start) != NULL;
    extra_count = found_count - held - its_own;
}
/* Whether a block fits the core, as leak_find has it. */
static int fits(const struct block *b)
{
    uint64_t head = core_word(b->start - 8), size = head & ~(uint64_t)7, least = (b->size + 8 + 15) & ~(uint64_t)15;
    if (head & 2) return size >= b->size + 16 && size < b->size + 16 + PAGE_BYTES + 16;
    return size >= (least < 32 ? 32 : least) && size <= least + 32 && core_word(b->start + size - 8) & 1;
}
static void count_misfits(void)
{
    for (int i = 0; i < found_count; i++)
        if (!fits(found + i)) misfits++, tell("misfit", found[i].start);
}
static void compare(void)
{
    for (int i = 0; i < SLOTS; i++) {
        const struct block b = truth->held[i];
        if (b.start && !is_there(&b)) missing++, tell("missing", b.start);
        if (b.start && is_over(&b)) over++, tell("freed", b.start);
    }
    count_extra();
    if (extra_count > IN_HAND) many++, tell("too many", extra_count);
    count_misfits();
}
/* A block that realloc has is there under its old address or the one that realloc gives in the end, or it is left out, if the core has it
 * half made: its size word leads to one that does not say that it is in use. Then its memory is not freed either. */
static void follow(void)
{
    const struct block moving = truth->moving;
    uint64_t head = moving.start ? core_word(moving.start - 8) : 0;
    if (!moving.start || is_there(&moving)) return;
    if (!(head & 2 || core_word(moving.start + (head & ~(uint64_t)7) - 8) & 1) && !is_over(&moving)) left_out++;
    else if (extra_count <= 0) lost++, tell("realloc's", moving.start);
}
/* The moment without registers: a walk that is not right without them must say so. */
static void without_registers(void)
{
    struct user_regs_struct none = { 0 };
    put_registers(&none);
    unsaid += run_walk() != 0;
}
static void look(void)
{
    moments++;
    most_maps = most_maps > map_count ? most_maps : map_count, least_maps = least_maps < map_count ? least_maps : map_count;
    put_registers(&registers);
    if (run_walk()) {
        refused++, tell_refusal();
        return;
    }
    compare();
    follow();
    without_registers();
}
static pid_t start(const char *path, char **words)
{
    int status;
    pid_t process = fork(), thread = 0;
    if (!process) {
        ptrace(PTRACE_TRACEME, 0, 0, 0);
        execv(path, words);
        _exit(2);
    }
    waitpid(process, &status, 0);
    ptrace(PTRACE_SETOPTIONS, process, 0, PTRACE_O_TRACECLONE | PTRACE_O_EXITKILL);
    for (thread = process;; thread = waitpid(-1, &status, __WALL)) {
        siginfo_t about = { 0 };
        if (thread < 0 || WIFEXITED(status)) exit(2);
        /* the program's own stop, and not the one that a new thread begins with */
        if (WSTOPSIG(status) == SIGSTOP && !ptrace(PTRACE_GETSIGINFO, thread, 0, &about) && about.si_code == SI_TKILL) break;
        ptrace(PTRACE_CONT, thread, 0, 0);
    }
    return thread;
}
/* Steps once. Gives 0 if the program ended; `kinds` of what was executed: a call of the kernel, or a step of a repeated one. */
static int step(pid_t thread, int *is_call, int *is_repeated)
{
    int status;
    uint8_t code[3] = { 0 };
    if (pread(memory, code, sizeof code, registers.rip) < 0) return 0;
    *is_call = code[0] == 0x0f && code[1] == 0x05;
    *is_repeated = code[0] == 0xf3 && (code[1] == 0xa4 || code[1] == 0xaa || code[1] == 0x48);
    return !ptrace(PTRACE_SINGLESTEP, thread, 0, 0) && waitpid(thread, &status, __WALL) == thread && WIFSTOPPED(status)
        && !ptrace(PTRACE_GETREGS, thread, 0, &registers);
}
static void open_process(pid_t thread)
{
    char name[64];
    snprintf(name, sizeof name, "/proc/%d/mem", (int)thread);
    memory = open(name, O_RDONLY);
    snprintf(name, sizeof name, "/proc/%d/pagemap", (int)thread);
    page_map = open(name, O_RDONLY);
    core_file = memfd_create("core", 0); /* on a disk that is busy each change of its size would wait */
    said = memfd_create("said", 0);
    snprintf(core_path, sizeof core_path, "/dev/fd/%d", core_file);
    ptrace(PTRACE_GETREGS, thread, 0, &registers);
    read_maps(thread, registers.rsp);
    begin_core();
    copy_memory();
}
/* Blocks of the C library itself, before the first step. */
static void find_own(void)
{
    if (run_walk() && truth->held[0].start) exit(2);
    for (int i = 0; i < found_count; i++) {
        int is_held = 0;
        for (int k = 0; k < SLOTS; k++) is_held |= truth->held[k].start == found[i].start;
        if (!is_held) own[own_count++] = found[i];
    }
}
int main(int argc, char **argv)
{
    int is_call, is_repeated;
    long steps = 0;
    if (argc < 4) return 2;
    walk = argv[1];
    map_truth(O_CREAT | O_TRUNC);
    argv[1] = "walk_stepped";
    pid_t thread = start("./walk_stepped", argv + 1);
    open_process(thread);
    find_own();
    for (; step(thread, &is_call, &is_repeated); steps++) {
        if (is_call) read_maps(thread, registers.rsp), begin_core();
        if (truth->inside && !is_repeated && copy_memory() | is_call) look();
    }
    printf("%ld instructions, %ld moments, %ld of them refused without registers; %ld mappings come and go; realloc's block left out %ld times\n", steps,
           moments, unsaid, most_maps - least_maps, left_out);
    printf("refused %ld missing %ld freed %ld lost %ld more %ld misfits %ld\n", refused, missing, over, lost, many, misfits);
    return !moments || refused + missing + over + lost + many + misfits;
}
