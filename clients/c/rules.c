/* rules.c: the errors and names of the rules, by the table of docs/use/rules.md. */
#include "connection.h"

#include <errno.h>

static const struct { int error; const char *name; } rules[LAST_RULE + 1] = {
    { 0, "" },
    { ESRCH, "NoSession" },
    { EBUSY, "InCall" },
    { EINVAL, "NotInCall" },
    { EINVAL, "NameForm" },
    { ENAMETOOLONG, "NameLong" },
    { EPERM, "NotAdmin" },
    { EINVAL, "NoUser" },
    { EBADF, "BadDescr" },
    { EBADF, "NotForWrite" },
    { EBADF, "NotForRead" },
    { EACCES, "DirSearch" },
    { EACCES, "DirRead" },
    { ENOENT, "Absent" },
    { EEXIST, "Present" },
    { EACCES, "ModeDenied" },
    { EACCES, "DirWrite" },
    { EACCES, "Sticky" },
    { EPERM, "NotOwner" },
    { EPERM, "ChownDenied" },
    { EINVAL, "AttrRange" },
    { EINVAL, "ValueRange" },
    { ENOSPC, "QueueCount" },
    { EMFILE, "ByteLimit" },
    { EMFILE, "DescrLimit" },
    { EINVAL, "PrioRange" },
    { EMSGSIZE, "MessageLong" },
    { EMSGSIZE, "BufferShort" },
    { EBUSY, "NotifyTaken" },
    { EAGAIN, "WouldBlock" },
    { EOVERFLOW, "Overflow" },
    { EACCES, "BadKey" },
    { ETIMEDOUT, "TimedOut" },
    { ESRCH, "NoTaker" },
};

static int is_rule(int rule) { return rule > 0 && rule <= LAST_RULE; }

int mqs_errno(int rule) { return is_rule(rule) ? rules[rule].error : EPROTO; }

const char *mqs_rule_name(int rule) { return is_rule(rule) ? rules[rule].name : ""; }
