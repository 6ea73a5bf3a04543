/* A file system of one folder (Linux, fs/fuse; linux/fuse.h) that takes all requests but one kind, which it reads and never answers: so who made
 * it waits in the kernel, also after SIGKILL. hostile_disk FOLDER OPCODE [FILE]: with FILE it has such a file of 64 MiB. Says what is removed. */
#include <errno.h>
#include <fcntl.h>
#include <linux/fuse.h>
#include <stdio.h>
#include <stdlib.h>
#include <string.h>
#include <sys/mount.h>
#include <sys/stat.h>
#include <sys/uio.h>
#include <unistd.h>

enum { PAGE = 4096, ROOM = 1 << 20, FILE_NODE = 2, FILE_BYTES = 64 << 20 };

static int device;
static unsigned hangs_at;
static char name[256];
static char room[ROOM];

static void answer(const struct fuse_in_header *in, int error, const void *body, size_t size)
{
    struct fuse_out_header out = { .len = sizeof out + size, .error = error, .unique = in->unique };
    struct iovec parts[] = { { &out, sizeof out }, { (void *)body, size } };

    if (writev(device, parts, 2) < 0 && errno != ENOENT)
        perror("answer"), exit(3);
}

static struct fuse_attr about(uint64_t node)
{
    return (struct fuse_attr){ .ino = node, .mode = node == FUSE_ROOT_ID ? S_IFDIR | 0755 : S_IFREG | 0644, .nlink = 1,
                               .size = node == FUSE_ROOT_ID ? 0 : FILE_BYTES, .blksize = PAGE };
}

static void answer_entry(const struct fuse_in_header *in, size_t more)
{
    struct { struct fuse_entry_out entry; struct fuse_open_out open; } out = { .entry = { .nodeid = FILE_NODE, .attr = about(FILE_NODE) } };

    answer(in, 0, &out, sizeof out.entry + more);
}

static void serve(const struct fuse_in_header *in, const char *body)
{
    struct fuse_init_out init = { .major = FUSE_KERNEL_VERSION, .minor = FUSE_KERNEL_MINOR_VERSION, .max_write = PAGE, .max_readahead = PAGE };
    struct fuse_attr_out attributes = { .attr = about(in->nodeid) };
    struct fuse_open_out opened = { 0 };
    struct fuse_write_out written = { .size = ((const struct fuse_write_in *)body)->size };
    struct fuse_statfs_out disk = { .st = { .blocks = 1 << 30, .bfree = 1 << 30, .bavail = 1 << 30, .bsize = PAGE, .frsize = PAGE, .namelen = 255 } };

    switch (in->opcode) {
    case FUSE_INIT: answer(in, 0, &init, sizeof init); break;
    case FUSE_GETATTR: case FUSE_SETATTR: answer(in, 0, &attributes, sizeof attributes); break;
    case FUSE_LOOKUP: strcmp(body, name) ? answer(in, -ENOENT, NULL, 0) : answer_entry(in, 0); break;
    case FUSE_CREATE: strcpy(name, body + sizeof(struct fuse_create_in)); answer_entry(in, sizeof(struct fuse_open_out)); break;
    case FUSE_OPEN: case FUSE_OPENDIR: answer(in, 0, &opened, sizeof opened); break;
    case FUSE_WRITE: answer(in, 0, &written, sizeof written); break;
    case FUSE_STATFS: answer(in, 0, &disk, sizeof disk); break;
    case FUSE_UNLINK: printf("removed %s\n", body); fflush(stdout); *name = 0; answer(in, 0, NULL, 0); break;
    case FUSE_RENAME2: strcpy(name, strchr(body + sizeof(struct fuse_rename2_in), 0) + 1); answer(in, 0, NULL, 0); break;
    case FUSE_READ: answer(in, 0, room + ROOM / 2, PAGE); break;
    case FUSE_FLUSH: case FUSE_RELEASE: case FUSE_RELEASEDIR: case FUSE_FSYNC: answer(in, 0, NULL, 0); break;
    case FUSE_FORGET: case FUSE_BATCH_FORGET: case FUSE_INTERRUPT: break;
    default: answer(in, -ENOSYS, NULL, 0);
    }
}

int main(int count, char **words)
{
    char options[128];

    if (count < 3)
        return 3;
    hangs_at = atoi(words[2]);
    if (count > 3)
        strcpy(name, words[3]);
    device = open("/dev/fuse", O_RDWR | O_CLOEXEC);
    snprintf(options, sizeof options, "fd=%d,rootmode=40000,user_id=0,group_id=0,allow_other", device);
    if (device < 0 || mount("hostile", words[1], "fuse", MS_NOSUID | MS_NODEV, options))
        return 3;
    puts("ready");
    fflush(stdout);
    for (const struct fuse_in_header *in = (void *)room; read(device, room, ROOM / 2) >= (ssize_t)sizeof *in;)
        if (in->opcode != hangs_at)
            serve(in, room + sizeof *in);
    return 0;
}
