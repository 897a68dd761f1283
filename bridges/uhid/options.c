#define _POSIX_C_SOURCE 200809L
#include "options.h"

#include <errno.h>
#include <getopt.h>
#include <limits.h>
#include <stdio.h>
#include <stdlib.h>
#include <string.h>
#include <unistd.h>

#ifndef HIDLOG_VERSION
#define HIDLOG_VERSION "(built from a clone)"
#endif

static const char help[] =
    "usage: hidlog-uhid [OPTIONS] STATE\n"
    "  -p, --presence WORD  What the user does: granted, ask (at the terminal), or script:FILE, with\n"
    "                       lines granted, denied or timeout; the last one is repeated [default: granted]\n"
    "  -t, --touch MS       Milliseconds until the user touches the key [default: 200]\n"
    "  -r, --record FILE    Record the session, for hidlog check\n"
    "  -s, --state STATE    State file of the key, created if it does not exist\n"
    "  -f, --fd N           Use the open descriptor N of /dev/uhid\n"
    "  -h, --help  -V, --version\n";

static const struct option long_options[] = {
    {"presence", required_argument, NULL, 'p'}, {"touch", required_argument, NULL, 't'},
    {"record", required_argument, NULL, 'r'},   {"state", required_argument, NULL, 's'},
    {"fd", required_argument, NULL, 'f'},       {"help", no_argument, NULL, 'h'},
    {"version", no_argument, NULL, 'V'},        {0},
};

// Parses an option's value as a number from 0 to INT_MAX. Returns false if it is not one.
static bool parse_number(const char *word, uint64_t *number) {
    char *end;
    errno = 0;
    *number = strtoull(word, &end, 10);
    return *word >= '0' && *word <= '9' && *end == 0 && errno == 0 && *number <= INT_MAX;
}

static bool print_help(const char *text) {
    if (fputs(text, stdout) < 0 || fflush(stdout) != 0) {
        fprintf(stderr, "hidlog-uhid: cannot write to standard output: %s\n", strerror(errno));
        return false;
    }
    return true;
}

static bool print_usage(void) {
    fputs(help, stderr);
    return false;
}

static bool report_invalid_number(const char *option, const char *word) {
    fprintf(stderr, "hidlog-uhid: invalid value '%s' for %s: expected a number from 0 to %d\n", word, option, INT_MAX);
    return print_usage();
}

// The values of options that options_parse converts only after all options have been parsed.
struct option_values {
    const char *presence;
    uint64_t touch, descriptor;
};

// Parses the option with this letter, and stores its value. Returns false if the option or its value is invalid.
static bool parse_option(struct options *options, struct option_values *values, int option) {
    switch (option) {
    case 'p':
        values->presence = optarg;
        return true;
    case 't':
        return parse_number(optarg, &values->touch) || report_invalid_number("--touch", optarg);
    case 'f':
        return parse_number(optarg, &values->descriptor) || report_invalid_number("--fd", optarg);
    case 'r':
        options->recorded = optarg;
        return true;
    case 's':
        options->state = optarg;
        return true;
    default:
        return print_usage();
    }
}

bool options_parse(struct options *options, int count, char **words) {
    struct option_values values = {"granted", 200, UINT64_MAX};
    memset(options, 0, sizeof *options);
    for (int option; (option = getopt_long(count, words, "p:t:r:s:f:hV", long_options, NULL)) != -1;) {
        options->is_help = option == 'h' || option == 'V';
        if (options->is_help) {
            return print_help(option == 'h' ? help : "hidlog-uhid " HIDLOG_VERSION "\n");
        }
        if (!parse_option(options, &values, option)) {
            return false;
        }
    }
    int left = count - optind;
    if (left != (options->state == NULL ? 1 : 0)) {
        fprintf(stderr, "hidlog-uhid: expected exactly one state file, as the argument STATE or with --state\n");
        return print_usage();
    }
    options->state = left == 1 ? words[optind] : options->state;
    options->device = values.descriptor <= INT_MAX ? (int)values.descriptor : -1;
    return user_parse(&options->user, values.presence, values.touch);
}
