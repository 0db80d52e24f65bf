/* Who makes the calls (document 02, (n)). The console passes the number on: which calls a role may make is the library's to
 * say. */
#include "desk.h"

#include <stdio.h>
#include <string.h>

/* Document 02's three sentences, by the role's number. */
static const struct { const char *name, *calls; } roles[] = {
    [PAGUNLIT_PHARMACIST] = {"pharmacist", "every call"},
    [PAGUNLIT_CARER] = {"carer", "dated show, standing, survey"},
    [PAGUNLIT_SERVICE] = {"service", "fresh, save, load, closing, standing, survey"},
};

static int is_known(uint32_t role)
{
    return role >= PAGUNLIT_PHARMACIST && role <= PAGUNLIT_SERVICE;
}

const char *role_name(uint32_t role)
{
    static char number[20];

    if (is_known(role))
        return roles[role].name;
    snprintf(number, sizeof number, "role %u", role);
    return number;
}

static void say_role(uint32_t role)
{
    if (is_known(role))
        say("Role %u, %s: %s.\n", role, roles[role].name, roles[role].calls);
    else
        say("Role %u: document 02 has no such role.\n", role);
}

/* A role by its name or its number. Any number can be asked for: the library turns away those that are no role. */
static int role_named(const char *word, uint32_t *role)
{
    for (*role = PAGUNLIT_PHARMACIST; is_known(*role); ++*role)
        if (strcmp(word, roles[*role].name) == 0)
            return 1;
    return read_number(word, role);
}

static void list_roles(uint32_t role)
{
    for (uint32_t known = PAGUNLIT_PHARMACIST; is_known(known); known++)
        say_role(known);
    say("The calls are made by: %s.\n", role_name(role));
}

COMMAND(role)
{
    uint32_t role;

    if (words->count > 2) {
        command_usage(d, words);
    } else if (words->count == 1) {
        list_roles(d->card.lent.role);
    } else if (!role_named(words->word[1], &role)) {
        desk_wrong(d, "`%.40s` is no role: there are pharmacist, carer and service.", words->word[1]);
    } else {
        d->card.lent.role = role;
        say_role(role);
    }
}
