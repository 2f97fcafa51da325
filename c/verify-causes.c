/* Why the key of a good signature isn't believed, in words. */
#include "verify-causes.h"

#include "verify-hints.h"
#include "verify-words.h"

#include <inttypes.h>
#include <stdio.h>

/* A word and a number, or - for none. */
static void print_number(FILE *file, const char *word, uint64_t number)
{
    if (number == OPGP_NONE) {
        fprintf(file, " %s -", word);
    } else {
        fprintf(file, " %s %" PRIu64, word, number);
    }
}

void print_cause(FILE *file, const opgp_cause *cause)
{
    static const char *const lacks[] = {"-", "newer", "lapsed", "weak", "malformed", "undated", "young", "critical"};
    fprintf(file, " key %s at %s lack %s", cause->is_primary ? "pub" : "sub", cause->is_now ? "now" : "made", lacks[cause->lack]);
    print_number(file, "date", cause->date);
    print_number(file, "part", cause->component);
    print_number(file, "hang", cause->hang);
}

/* What is said in front of a date and behind it; without a date the first stands alone. */
struct fact {
    const char *front, *behind;
};

/* What a key lacks for which nothing speaks, and what to do. */
static struct fact want_of(const opgp_cause *cause)
{
    static const struct fact wants[] = {
        [OPGP_LACK_NOTHING] = {"no signature binds it: get another copy of the certificate", NULL},
        [OPGP_LACK_NEWER] = {"what binds it is newer, of ", ": add an older copy of the certificate"},
        [OPGP_LACK_LAPSED] = {"what binds it expired on ", ": get a newer copy of the certificate, or judge as of then with --at"},
        [OPGP_LACK_WEAK] = {"what binds it isn't relied on, but with --policy any", NULL},
        [OPGP_LACK_MALFORMED] = {"what binds it is malformed", NULL},
        [OPGP_LACK_UNDATED] = {"what binds it doesn't state one time when it was made", NULL},
        [OPGP_LACK_YOUNG] = {"what binds it is older than the key that made it", NULL},
        [OPGP_LACK_CRITICAL] = {"what binds it has something critical that is unknown", NULL},
    };
    return wants[cause->lack];
}

/* What is so of the key, and what to do. */
static struct fact fact_of(const opgp_cause *cause)
{
    static const struct fact facts[] = {
        [OPGP_IN_FUTURE] = {"it was made on ", ", after the present time"},
        [OPGP_REVOKED] = {"it was revoked on ", ""},
        [OPGP_EARLY] = {"it was created on ", ", after the signature was made"},
        [OPGP_EXPIRED] = {"it had expired on ", ", before the signature was made: get a newer copy of the certificate"},
        [OPGP_NOT_SIGNING] = {"it isn't meant to sign", NULL},
        [OPGP_UNBACKED] = {"its binding lacks a signature by the subkey that counts", NULL},
    };
    if (cause->why == OPGP_EXPIRED && cause->is_now) {
        return (struct fact){"it expired on ", ": get a newer copy of the certificate, or judge as of then with --at"};
    }
    if (cause->why == OPGP_REVOKED && cause->date == OPGP_NONE) {
        return (struct fact){"it is revoked", NULL};
    }
    return cause->why == OPGP_UNBOUND ? want_of(cause) : facts[cause->why];
}

void explain_cause(const char *program, const opgp_cause *cause)
{
    if (shows_hints()) {
        char date[TIME_ROOM] = "";
        struct fact fact = fact_of(cause);
        if (fact.behind && cause->date != OPGP_NONE) {
            time_text(cause->date, "%Y-%m-%d", date);
        }
        const char *what = cause->why == OPGP_IN_FUTURE ? "the signature" : cause->is_primary ? "the primary key" : "the signer's key";
        say(program, "%s: %s%s%s", what, fact.front, date, fact.behind ? fact.behind : "");
    }
}
