/* Goes over to the kernel that the bridge wrote into a folder, by kexec_file_load.
 *
 *   kexec [-n] [-a WORDS] FOLDER
 *
 * FOLDER has `kernel`, `command-line`, and `initrd` where there is one; the WORDS follow the command line. -n loads the
 * kernel and stays. It ends only where it can't: with 1 and the system's reason in words, or 2 for invalid words. */
#define _GNU_SOURCE
#include <errno.h>
#include <fcntl.h>
#include <stdbool.h>
#include <stdio.h>
#include <stdlib.h>
#include <string.h>
#include <sys/reboot.h>
#include <sys/syscall.h>
#include <unistd.h>

enum { MOST_WORDS = 2048, NO_INITRD = 4, FAILED = 1, USAGE = 2, CONSOLE_US = 300000 };

static const char *folder;

static _Noreturn void refuse(const char *what, const char *why) {
    printf("kexec: %s: %s\n", what, why);
    exit(FAILED);
}
/* Why kexec_file_load refused, by its errno. */
static const char *reason(int number) {
    static char other[128];
    switch (number) {
    case ENOEXEC: return "it isn't a Linux kernel that can be started from another";
    case EKEYREJECTED: case ENOKEY: case EBADMSG: case ENODATA: case ENOPKG: case ELIBBAD:
        return "it has no signature that this machine trusts, and Secure Boot asks for one";
    case EPERM: case EACCES: return "the system doesn't allow it, or not without a signature that it trusts";
    case ENOMEM: case EADDRNOTAVAIL: return "kernel and initrds don't fit into this machine's memory";
    case EFBIG: return "kernel or initrds are too large";
    case EINVAL: return "the command line is longer than this kernel takes, or its header is invalid";
    case ENOSYS: return "the system that runs now has no kexec_file_load";
    case EBUSY: return "another kernel is being loaded";
    default: snprintf(other, sizeof other, "%s", strerror(number)); return other;
    }
}
static int opened(const char *name) {
    char path[256];
    size_t size = (size_t)snprintf(path, sizeof path, "%s/%s", folder, name);
    if (size >= sizeof path) refuse(folder, strerror(ENAMETOOLONG));
    return open(path, O_RDONLY | O_CLOEXEC);
}
/* The command line that was handed off, and these words after it. */
static void read_words(char words[MOST_WORDS], const char *more) {
    int line = opened("command-line");
    ssize_t n = line < 0 ? -1 : read(line, words, MOST_WORDS);
    if (n < 0) refuse("command-line", strerror(errno));
    size_t size = (size_t)n, added = strlen(more) + (n && *more ? 1 : 0);
    if (memchr(words, 0, size)) refuse("command-line", "it has a zero byte");
    if (size + added >= MOST_WORDS) refuse("command-line", "it is too long");
    snprintf(words + size, MOST_WORDS - size, "%s%s", n && *more ? " " : "", more);
    close(line);
}
static void show(const char *words) {
    printf("kexec: loaded; the kernel's command line is: ");
    for (; *words; words++) printf(*words >= 32 && *words < 127 ? "%c" : "\\x%02x", (unsigned char)*words);
    printf("\n");
}
static void load(const char *words) {
    int kernel = opened("kernel"), initrd = opened("initrd");
    if (kernel < 0 && errno == ENOENT) refuse("kernel", "none was handed off, and a disk can't be started");
    if (kernel < 0) refuse("kernel", strerror(errno));
    unsigned long how = initrd < 0 ? NO_INITRD : 0;
    if (syscall(SYS_kexec_file_load, kernel, initrd, strlen(words) + 1, words, how)) refuse("kernel", reason(errno));
}
int main(int count, char **arguments) {
    char words[MOST_WORDS] = "";
    const char *more = "";
    bool stays = false;
    for (int c; (c = getopt(count, arguments, "na:")) != -1;)
        if (c == '?') return USAGE;
        else if (c == 'n') stays = true;
        else more = optarg;
    if (optind + 1 != count) return USAGE;
    folder = arguments[optind];
    read_words(words, more), load(words), show(words);
    if (stays) return 0;
    printf("kexec: going over to it\n"), fflush(stdout);
    usleep(CONSOLE_US), sync(), reboot(RB_KEXEC); /* until then the consoles take what was said */
    refuse("kernel", strerror(errno));
}
