/*
 * Work through libnfs, to be compared with the same work through nfs3: libnfs_work URL KIND PATH COUNT [LANES]. URL is
 * that of the export, and KIND is one of
 *   write   creates the file PATH, writes COUNT pieces of 65,536 bytes, and commits them
 *   read    reads COUNT pieces of 65,536 bytes of the file PATH, and throws them away
 *   wide    reads the same in calls of 1,048,576 bytes, of which COUNT / 16 are made
 *   show    reads the same, and writes to standard output the lines that nfs3 answers its script with: `N ok` for each
 *           of LANES lines that open the file, then `N ok` and the piece's bytes in hex, each line with its lane before it
 *   small   creates COUNT files of 100 bytes each, whose names begin with PATH, and commits each
 *   list    lists the directory PATH, which has COUNT names
 * The status is 0 where all was done.
 */
#include <fcntl.h>
#include <stdio.h>
#include <stdlib.h>
#include <string.h>
#include <unistd.h>
#include <nfsc/libnfs.h>

enum { PIECE = 65536, WIDE = 16 * PIECE, SMALL = 100 };

static char piece[WIDE];
static char text[32 + 2 * PIECE];
static char digits[256][2];

/* Ends the program where a call of libnfs failed. */
static void check(struct nfs_context *nfs, int failed, const char *what)
{
    if (failed) {
        fprintf(stderr, "%s: %s\n", what, nfs_get_error(nfs));
        exit(1);
    }
}

static void write_file(struct nfs_context *nfs, const char *path, int pieces, int bytes)
{
    struct nfsfh *file;
    check(nfs, nfs_creat(nfs, path, 0644, &file) != 0, "create");
    for (int i = 0; i < pieces; i++)
        check(nfs, nfs_pwrite(nfs, file, (uint64_t)i * bytes, bytes, piece) != bytes, "write");
    check(nfs, nfs_fsync(nfs, file) != 0, "commit");
    nfs_close(nfs, file);
}

static void read_file(struct nfs_context *nfs, const char *path, int pieces, int bytes)
{
    struct nfsfh *file;
    check(nfs, nfs_open(nfs, path, O_RDONLY, &file) != 0, "open");
    for (int i = 0; i < pieces; i++)
        check(nfs, nfs_pread(nfs, file, (uint64_t)i * bytes, bytes, piece) != bytes, "read");
    nfs_close(nfs, file);
}

static void fill_digits(void)
{
    for (int byte = 0; byte < 256; byte++) {
        digits[byte][0] = "0123456789abcdef"[byte / 16];
        digits[byte][1] = "0123456789abcdef"[byte % 16];
    }
}

/* Writes the line that answers a line of nfs3's script, with the bytes of the piece. */
static void show(int lane, int number, int bytes)
{
    char *end = text + sprintf(text, "%d %d ok%s", lane, number, bytes == 0 ? "" : " ");
    for (int i = 0; i < bytes; i++, end += 2)
        memcpy(end, digits[(unsigned char)piece[i]], 2);
    *end++ = '\n';
    for (char *at = text; at < end;) {
        ssize_t count = write(STDOUT_FILENO, at, end - at);
        if (count <= 0) {
            perror("standard output");
            exit(1);
        }
        at += count;
    }
}

static void show_file(struct nfs_context *nfs, const char *path, int pieces, int lanes)
{
    struct nfsfh *file;
    fill_digits();
    check(nfs, nfs_open(nfs, path, O_RDONLY, &file) != 0, "open");
    for (int lane = 1; lane <= lanes; lane++)
        show(lane, lane, 0);
    for (int i = 0; i < pieces; i++) {
        check(nfs, nfs_pread(nfs, file, (uint64_t)i * PIECE, PIECE, piece) != PIECE, "read");
        show(i % lanes + 1, lanes + i + 1, PIECE);
    }
    nfs_close(nfs, file);
}

static void write_small_files(struct nfs_context *nfs, const char *path, int count)
{
    char name[256];
    for (int i = 0; i < count; i++) {
        snprintf(name, sizeof name, "%s%d", path, i);
        write_file(nfs, name, 1, SMALL);
    }
}

/* The listing of libnfs has `.` and `..`. */
static void list(struct nfs_context *nfs, const char *path, int count)
{
    struct nfsdir *dir;
    int names = 0;
    check(nfs, nfs_opendir(nfs, path, &dir) != 0, "list");
    while (nfs_readdir(nfs, dir) != NULL)
        names++;
    nfs_closedir(nfs, dir);
    check(nfs, names != count + 2, "the number of names");
}

int main(int argc, char **argv)
{
    struct nfs_context *nfs = nfs_init_context();
    if (argc < 5 || argc > 6 || nfs == NULL)
        return 2;
    const char *kind = argv[2], *path = argv[3];
    int count = atoi(argv[4]), lanes = argc == 6 ? atoi(argv[5]) : 1;
    if (lanes < 1)
        return 2;
    struct nfs_url *url = nfs_parse_url_dir(nfs, argv[1]);
    memset(piece, 'a', sizeof piece);
    check(nfs, url == NULL || nfs_mount(nfs, url->server, url->path) != 0, "mount");
    if (strcmp(kind, "write") == 0)
        write_file(nfs, path, count, PIECE);
    else if (strcmp(kind, "read") == 0)
        read_file(nfs, path, count, PIECE);
    else if (strcmp(kind, "wide") == 0)
        read_file(nfs, path, count / 16, WIDE);
    else if (strcmp(kind, "show") == 0)
        show_file(nfs, path, count, lanes);
    else if (strcmp(kind, "small") == 0)
        write_small_files(nfs, path, count);
    else if (strcmp(kind, "list") == 0)
        list(nfs, path, count);
    else
        return 2;
    nfs_destroy_url(url);
    nfs_destroy_context(nfs);
    return 0;
}
