/* A process whose threads read and pack a folder while it forks children that live on, as a service with workers does:
 *
 *     forks FOLDER COUNT      prints "forked" once there are so many children and the threads have ended, and ends with its standard input
 */
#define main example_main
#include "keeps_folder.c"
#undef main

#include <pthread.h>
#include <signal.h>
#include <unistd.h>

static const char *folder;
static int is_over = 0;

static int goes_on(void) { return !__atomic_load_n(&is_over, __ATOMIC_SEQ_CST); }

static void *read_on(void *nothing) {
    while (goes_on()) {
        lanes_part_names names;
        lanes_parts parts = taken(folder, &names);
        lanes_parts_close(&parts);
        free(names.names);
    }
    return nothing;
}

static void *pack_on(void *nothing) {
    while (goes_on()) {
        import(folder, "A\n1\n");
        pack(folder);
    }
    return nothing;
}

int main(int count, char **given) {
    pthread_t reader, packer;
    int wanted = count == 3 ? atoi(given[2]) : 0;
    if (wanted < 1 || wanted > 100) return 2;
    pid_t children[100];
    folder = given[1];
    if (pthread_create(&reader, NULL, read_on, NULL) || pthread_create(&packer, NULL, pack_on, NULL)) return 3;
    for (int i = 0; i < wanted; i++) {
        usleep(4000);
        children[i] = fork();
        if (!children[i]) {
            alarm(60); /* also if this process fails */
            for (;;) pause();
        }
    }
    __atomic_store_n(&is_over, 1, __ATOMIC_SEQ_CST);
    pthread_join(reader, NULL);
    pthread_join(packer, NULL);
    puts("forked");
    fflush(stdout);
    while (getchar() != EOF) {}
    for (int i = 0; i < wanted; i++) kill(children[i], SIGKILL);
    return 0;
}
