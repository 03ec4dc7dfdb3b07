/* The sample and damaged files through the three functions, each in a thread with no more stack than the header asks for. */
#include <maceplateau.h>
#include <pthread.h>
#include <stdio.h>
#include <stdlib.h>
#include <string.h>

/* Register 1 translator, 2 reviser, constant 0 nobody. */
static const char sample[] =
    "     1     2     1     3     2     2\n"
    "     2           0\n"
    "     3     1\n"
    "     3     1\n"
    "     4     1\n"
    "     5     1     1     1     3     1\n"
    "     5     1     2     1     3     1\n"
    "     6     1     1     2\n"
    "     7     2     1     2     3     1\n"
    "     8     1     2     1\n"
    "     8     2     3     1\n"
    "     6     2     2     3\n"
    "     7     2     1     2     1     1\n"
    "     7     2     1     2     3     1\n"
    "     8     1     1     1\n"
    "     8     2     2     1\n";

static const char place_3[] = "     4     3\n";
static const char registers_equal[] = "     4     3\n     5     1     1     1     1     2\n";
static const char always_itself[] = "     2     1     1\n     8     1     0\n";
static const char always_place_1[] = "     1     1     0\n     8     1     0\n";
static const char at_last_place_3[] = "     1     3     0\n    14     1     0\n";
static const char names_itself[] = "     1     3     0\n    14     2     0\n";
static const char place_4[] = "     4     4\n";

typedef uint32_t function(const uint8_t *, size_t, const uint8_t *, size_t);

struct call {
    function *function;
    const uint8_t *table, *other;
    size_t table_length, other_length;
    uint32_t reply;
};

static int differences;

static void *run(void *argument)
{
    struct call *c = argument;
    c->reply = c->function(c->table, c->table_length, c->other, c->other_length);
    return NULL;
}

/* Calls in a thread of its own, and compares the reply. */
static void expect(const char *what, uint32_t reply, function *f, const void *table, size_t table_length, const void *other,
                   size_t other_length)
{
    struct call c = {f, table, other, table_length, other_length, 0};
    size_t stack = f == maceplateau_reach ? MACEPLATEAU_REACH_STACK : MACEPLATEAU_ASK_STACK;
    pthread_attr_t attributes;
    pthread_t thread;
    if (pthread_attr_init(&attributes) || pthread_attr_setstacksize(&attributes, stack)
        || pthread_create(&thread, &attributes, run, &c) || pthread_join(thread, NULL)) {
        perror("a thread");
        exit(2);
    }
    pthread_attr_destroy(&attributes);
    if (c.reply != reply) {
        printf("%s: %u, expected %u\n", what, (unsigned)c.reply, (unsigned)reply);
        differences++;
    }
}

static void reach(const char *what, uint32_t reply, const char *table, const char *target)
{
    expect(what, reply, maceplateau_reach, table, strlen(table), target, strlen(target));
}

static void ask(const char *what, uint32_t reply, const char *table, const char *question)
{
    expect(what, reply, maceplateau_ask, table, strlen(table), question, strlen(question));
}

static void ask_text(const char *what, uint32_t reply, const char *table, const char *text)
{
    expect(what, reply, maceplateau_ask_text, table, strlen(table), text, strlen(text));
}

int main(void)
{
    char damaged[sizeof sample], sized[sizeof sample], largest[sizeof sample], larger[sizeof sample], narrow[sizeof sample];
    char stopped[sizeof sample];
    static char overlong[40001];
    memcpy(damaged, sample, sizeof sample);
    damaged[sizeof sample - 2] = ' ';
    memcpy(sized, sample, sizeof sample);
    sized[11] = '6';
    /* The identifier's ten digits end at byte 54; in the old width line 2 ends six bytes earlier. */
    memcpy(largest, sample, sizeof sample);
    memcpy(largest + 45, "4294967295", 10);
    memcpy(larger, largest, sizeof sample);
    larger[54] = '6';
    memcpy(narrow, sample, 43);
    memcpy(narrow + 43, sample + 49, sizeof sample - 49);
    /* Without its second arc the sample stops at place 2. */
    memcpy(stopped, sample, sizeof sample);
    stopped[35] = '1';
    *strstr(stopped, "     6     2     2     3\n") = 0;
    memset(overlong, ' ', sizeof overlong);
    char nots[402];
    memset(nots, '!', sizeof nots);

    reach("place 3", 1, sample, place_3);
    reach("place 3 with registers equal", 0, sample, registers_equal);
    ask("EG of register 1 = register 1", 1, sample, always_itself);
    ask("EG of place 1", 0, sample, always_place_1);
    ask("AF place 3", 1, sample, at_last_place_3);
    reach("place 3, stopped at place 2", 0, stopped, place_3);
    ask("AF place 3, stopped at place 2", 0, stopped, at_last_place_3);

    reach("reach, a damaged table", 102, damaged, place_3);
    ask("ask, a damaged table", 102, damaged, at_last_place_3);
    reach("reach, an empty table", 102, "", place_3);
    ask("ask, an empty table", 102, "", at_last_place_3);
    reach("an empty target", 102, sample, "");
    ask("an empty question", 102, sample, "");
    expect("reach, no pointers", 102, maceplateau_reach, NULL, 0, NULL, 0);
    expect("ask, no pointers", 102, maceplateau_ask, NULL, 0, NULL, 0);
    expect("reach, an overlong table", 101, maceplateau_reach, overlong, sizeof overlong, place_3, strlen(place_3));
    expect("ask, an overlong question", 101, maceplateau_ask, sample, strlen(sample), overlong, 609);
    reach("six registers", 103, sized, place_3);
    reach("the largest identifier", 1, largest, place_3);
    ask("ask, the largest identifier", 1, largest, at_last_place_3);
    reach("an identifier too large", 105, larger, place_3);
    ask("ask, an identifier too large", 105, larger, at_last_place_3);
    reach("line 2 in the old width", 102, narrow, place_3);
    reach("place 4 of 3", 105, sample, place_4);
    ask("a row that names itself", 108, sample, names_itself);

    ask_text("nobody revises her own segment", 1, sample, "AG!(L3&r1=r2)");
    ask_text("EG of register 1 = register 1, as text", 1, sample, "EGr1=r1");
    ask_text("EG of place 1, as text", 0, sample, "EGL1");
    ask_text("AF place 3, stopped at place 2, as text", 0, stopped, "AFL3");
    ask_text("stopped at place 2 for good", 1, stopped, "AFEGL2");
    ask_text("E U", 1, sample, "E(r2=c1UL3)");
    ask_text("a text, a damaged table", 102, damaged, "AFL3");
    ask_text("a text, six registers", 103, sized, "x");
    ask_text("a text, an identifier too large", 105, larger, "x");
    ask_text("place 4 of 3, as text", 105, sample, "AFL4");
    ask_text("an empty text", 111, sample, "");
    ask_text("a line end behind a text", 111, sample, "AFL3\n");
    ask_text("brackets around one question", 111, sample, "(L3)");
    ask_text("33 rows, as text", 112, sample, "!!!!!!!!!!!!!!!!!!!!!!!!!!!!!!!!L3");
    expect("a text, no pointers", 102, maceplateau_ask_text, NULL, 0, NULL, 0);
    expect("a text of no bytes, no pointer", 111, maceplateau_ask_text, sample, strlen(sample), NULL, 0);
    expect("400 times !", 111, maceplateau_ask_text, sample, strlen(sample), nots, 400);
    expect("401 times !", 101, maceplateau_ask_text, sample, strlen(sample), nots, 401);
    memcpy(nots + 398, "L3", 2);
    expect("a question of 400 bytes", 112, maceplateau_ask_text, sample, strlen(sample), nots, 400);
    return differences != 0;
}
