/* A fixed piece of work, by which the processor minutes of two runs of tests/all can be compared: processors differ, and those of a
 * virtual machine differ from hour to hour. It puts a million drawn numbers into a tree that is not balanced, and finds most of its
 * memory outside the processor's caches, as a proof does. Every five minutes it prints how many processor seconds that took, until the
 * process that started it ends it, or is gone. */
#include <stdint.h>
#include <stdio.h>
#include <time.h>
#include <unistd.h>

enum { COUNT = 1000000, PAUSE_SECONDS = 300 };

struct node {
    uint64_t key;
    struct node *left, *right;
};

static struct node nodes[COUNT];

static void grow_tree(void)
{
    uint64_t drawn = 88172645463325252u;
    struct node *root = NULL;
    for (struct node *new = nodes; new < nodes + COUNT; new++) {
        drawn ^= drawn << 13;
        drawn ^= drawn >> 7;
        drawn ^= drawn << 17;
        *new = (struct node){.key = drawn};
        struct node **place = &root;
        while (*place != NULL)
            place = drawn < (*place)->key ? &(*place)->left : &(*place)->right;
        *place = new;
    }
}

int main(void)
{
    pid_t parent = getppid();
    while (getppid() == parent) {
        clock_t begun = clock();
        grow_tree();
        printf("%.2f\n", (double)(clock() - begun) / CLOCKS_PER_SEC);
        fflush(stdout);
        sleep(PAUSE_SECONDS);
    }
}
