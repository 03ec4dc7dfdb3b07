/* How many bytes of stack a call needs. Arguments: reach, ask or ask_text, a table's file, the other file. Prints the call, the files,
 * the reply and the bytes; exit 1 where they are more than the header says.
 *
 * The call runs in a thread whose stack is filled with one byte; whatever it changed below the caller's frame is its own. */
#define _GNU_SOURCE
#include <maceplateau.h>
#include <pthread.h>
#include <stdio.h>
#include <stdlib.h>
#include <string.h>
#include <sys/mman.h>

enum { STACK = 64 << 20, FILL = 0xA5 };

struct call {
    uint32_t (*function)(const uint8_t *, size_t, const uint8_t *, size_t);
    uint8_t *first, *second;
    size_t first_length, second_length;
    uint32_t reply;
    uint8_t *top;
};

static void fail(const char *what)
{
    perror(what);
    exit(2);
}

static uint8_t *read_file(const char *path, size_t *length)
{
    FILE *file = fopen(path, "rb");
    uint8_t *bytes = malloc(1 << 20);
    if (!file || !bytes)
        fail(path);
    *length = fread(bytes, 1, 1 << 20, file);
    fclose(file);
    return bytes;
}

static void *run(void *argument)
{
    struct call *c = argument;
    c->top = __builtin_frame_address(0);
    c->reply = c->function(c->first, c->first_length, c->second, c->second_length);
    return NULL;
}

int main(int count, char **words)
{
    if (count != 4) {
        fprintf(stderr, "usage: stack reach|ask|ask_text TABLE OTHER\n");
        return 2;
    }
    int reaches = strcmp(words[1], "reach") == 0, by_text = strcmp(words[1], "ask_text") == 0;
    size_t stated = reaches ? MACEPLATEAU_REACH_STACK : MACEPLATEAU_ASK_STACK;
    struct call c = {.function = reaches ? maceplateau_reach : by_text ? maceplateau_ask_text : maceplateau_ask};
    c.first = read_file(words[2], &c.first_length);
    c.second = read_file(words[3], &c.second_length);
    uint8_t *stack = mmap(NULL, STACK, PROT_READ | PROT_WRITE, MAP_PRIVATE | MAP_ANONYMOUS | MAP_STACK, -1, 0);
    if (stack == MAP_FAILED)
        fail("mmap");
    memset(stack, FILL, STACK);
    pthread_attr_t attributes;
    pthread_t thread;
    if (pthread_attr_init(&attributes) || pthread_attr_setstack(&attributes, stack, STACK)
        || pthread_create(&thread, &attributes, run, &c) || pthread_join(thread, NULL))
        fail("a thread");
    uint8_t *lowest = stack;
    while (*lowest == FILL)
        lowest++;
    size_t bytes = (size_t)(c.top - lowest);
    printf("%s %s %s: reply %u, %zu bytes of stack\n", words[1], words[2], words[3], (unsigned)c.reply, bytes);
    return bytes > stated;
}
