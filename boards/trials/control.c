/* control: shows that the guarded pages tell. Each line is a call that must end in a fault, since it is lent less than it is told: it is made in a process of its own,
 * and the line says whether it ended so. */
#define _GNU_SOURCE
#include "lent.h"

#include <signal.h>
#include <stdio.h>
#include <string.h>
#include <sys/resource.h>
#include <sys/wait.h>
#include <unistd.h>

enum { SIDE = 16 };

/* A list of a frame of 16 x 16, lent at one side. */
static void make_list(struct call *call, enum side side)
{
    memset(call, 0, sizeof *call);
    call->kind = 2;
    call->scalars[0] = SIDE;
    call->scalars[1] = SIDE;
    call->scalars[2] = 100;
    call->lengths[0] = SIDE * SIDE;
    call->lengths[OUT] = MN_NUMBERS;
    lend(call, side);
}

/* The calls, and first a sound one. */
static void sound(struct call *call)
{
    make_list(call, AT_END);
}

static void long_frame(struct call *call)
{
    make_list(call, AT_END);
    call->given[0] = (uint16_t *)call->given[0] + 1;
}

static void early_frame(struct call *call)
{
    make_list(call, AT_START);
    call->given[0] = (uint16_t *)call->given[0] - 1;
}

static void long_out(struct call *call)
{
    make_list(call, AT_END);
    call->given[OUT] = (int64_t *)call->given[OUT] + 1;
}

static void read_only_out(struct call *call)
{
    make_list(call, AT_END);
    call->given[OUT] = call->given[0];
}

/* One star at x = 10^9, whose magnitude's last byte is not lent. */
static void long_catalogue(struct call *call)
{
    static const uint8_t star[MN_CATALOGUE_RECORD - 1] = {0, 0, 0, 1, 0x3b, 0x9a, 0xca, 0};
    memset(call, 0, sizeof *call);
    call->kind = 4;
    call->lengths[0] = sizeof star;
    call->lengths[OUT] = MN_NUMBERS;
    lend(call, AT_END);
    memcpy(call->filled[0], star, sizeof star);
    call->lengths[0]++;
}

/* Whether the call ends in a fault. */
static int faults(void (*make)(struct call *))
{
    int status = 0;
    const pid_t child = fork();
    if (child == 0) {
        const struct rlimit none = {0, 0};
        struct call call;
        setrlimit(RLIMIT_CORE, &none);
        make(&call);
        make_plain(&call);
        _exit(0);
    }
    if (child < 0 || waitpid(child, &status, 0) != child) {
        perror("control");
        return -1;
    }
    return WIFSIGNALED(status) && WTERMSIG(status) == SIGSEGV;
}

int main(void)
{
    static const struct {
        const char *what;
        void (*make)(struct call *);
        int faults;
    } controls[6] = {
        {"a sound call", sound, 0},
        {"a frame a sample shorter than told", long_frame, 1},
        {"a frame that begins a sample early", early_frame, 1},
        {"an out a number shorter than told", long_out, 1},
        {"an out that can only be read", read_only_out, 1},
        {"a catalogue a byte shorter than told", long_catalogue, 1},
    };
    int k, wrong = 0;
    for (k = 0; k < 6; k++) {
        const int found = faults(controls[k].make);
        printf("%s: %s\n", controls[k].what, found ? "a fault" : "no fault");
        wrong |= found != controls[k].faults;
    }
    return wrong;
}
