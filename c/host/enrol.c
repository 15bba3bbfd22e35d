/*
 * Enrols a vector: puts it in the place of the office box's.
 *
 * The office box reads its vector whenever it begins with a set, and finds the old file or the new
 * one, whole. So the parts may run meanwhile, and nothing has to be told to them. The vector is
 * held against the door's settings first: nobody has to learn at the door that what was enrolled
 * is of no use there. That decides nothing: the mask call tests each vector at every check.
 */
#include "host.h"

#include <inttypes.h>
#include <string.h>

/* Whether sets can be dealt for them; says why not. */
static bool are_of_use(struct door_terms terms)
{
    struct elements range;
    if (elements_of(terms.code, &range) && terms.n >= 1 && terms.n <= DOOR_LENGTH_MOST)
        return true;
    say(SETTINGS_FILE " has code %" PRIu32 " and length %zu; a code is 0 to 2, and a length 1 to "
        "%d: put " SETTINGS_FILE " right first",
        terms.code, terms.n, DOOR_LENGTH_MOST);
    return false;
}

static bool has_length(const struct vector *vector, struct door_terms terms, const char *file)
{
    if (vector->length == terms.n)
        return true;
    say("%s has %zu numbers; " SETTINGS_FILE " has length %zu: give a vector with so many", file,
        vector->length, terms.n);
    return false;
}

static bool is_in_range(const struct vector *vector, uint32_t code, const char *file)
{
    struct elements range;
    elements_of(code, &range);
    for (size_t i = 0; i < vector->length; i++) {
        const int32_t element = (int32_t)vector->words[i];
        if (element >= range.low && element <= range.high)
            continue;
        say("%s: number %zu is %" PRId32 "; with code %" PRIu32 " of " SETTINGS_FILE " a vector "
            "has numbers from %" PRId32 " to %" PRId32 ": give one that is made for this measure",
            file, i + 1, element, code, range.low, range.high);
        return false;
    }
    return true;
}

static bool fits(const struct vector *vector, const struct settings *settings, const char *file)
{
    const struct door_terms terms = settings->terms;
    return are_of_use(terms) && has_length(vector, terms, file)
        && is_in_range(vector, terms.code, file);
}

static enum enrolled put_in_place(const struct vector *vector, struct door_terms terms)
{
    char words[TERMS_ROOM];
    terms_words(terms, words);
    enum enrolled done = write_enrolled(vector);
    if (done == ENROLLED)
        say("enrolled: %s; each check that the office box begins from now on goes by it", words);
    if (done == PERHAPS_ENROLLED)
        say("office/vector has the new vector, but a power cut may bring the old one back: enrol "
            "again");
    return done;
}

/* The file's path is the caller's, so it is read before the working folder changes. Of two
   enrolments at one time each would write into the other's new file: so it is claimed. */
int run_enrol(const char *folder, const char *file, enum vector_form form)
{
    static struct vector vector;
    static struct settings settings;
    enum enrolled done = NOT_ENROLLED;
    if (read_vector_as(form, file, &vector) && go_to(folder) && read_settings(&settings)
        && (form == AS_TEXT || takes_iris(&settings)) && fits(&vector, &settings, file)
        && claim("enrol.running"))
        done = put_in_place(&vector, settings.terms);
    explicit_bzero(&vector, sizeof vector);
    if (done == NOT_ENROLLED)
        say("nothing was enrolled");
    return done == ENROLLED ? EXIT_OPEN : EXIT_TROUBLE;
}
