/* A host service to start from: each file named is a job text, and as many threads as are told serve them.
 *
 *     cc -pthread -IFOLDER/include host/service.c -LFOLDER/lib -lpackmap -o service
 *     ./service [-j THREADS] FILE..
 *
 * The listings go to standard output in the order of the names, whichever thread made them; a job without a listing
 * leaves a line on standard error that says why. Exit status: 0 if every job was listed, 1 if one was not, 2 if the
 * command is not as above.
 *
 * packmap_job keeps nothing from call to call, so the threads share no more than the list of jobs. */
#include <errno.h>
#include <pthread.h>
#include <stdio.h>
#include <stdlib.h>
#include <string.h>

#include "packmap.h"

enum { MOST_THREADS = 256 };

struct job {
    const char *name;
    int error;        /* what kept the file from being read, as in errno, or 0 */
    uint64_t answer;  /* of packmap_job */
    uint8_t *listing; /* of that many bytes, where the job is not refused */
};

static struct job *jobs;
static size_t job_count, next_job;
static pthread_mutex_t taking = PTHREAD_MUTEX_INITIALIZER;

/* The next job that no thread has taken, or NULL. */
static struct job *take(void) {
    pthread_mutex_lock(&taking);
    struct job *job = next_job < job_count ? &jobs[next_job++] : NULL;
    pthread_mutex_unlock(&taking);
    return job;
}

/* The bytes of a file, as many as the buffer takes. */
static size_t read_text(struct job *job, uint8_t *text, size_t room) {
    FILE *file = fopen(job->name, "rb");
    if (!file) {
        job->error = errno;
        return 0;
    }
    errno = 0;
    size_t length = fread(text, 1, room, file);
    if (ferror(file))
        job->error = errno ? errno : EIO;
    fclose(file);
    return length;
}

static void serve_one(struct job *job) {
    /* one byte more than a text may have, so that a longer one is told apart from one that fits */
    uint8_t text[PACKMAP_BYTES + 1], listing[PACKMAP_BYTES];
    size_t length = read_text(job, text, sizeof text);
    if (job->error)
        return;
    job->answer = packmap_job(text, length, listing, sizeof listing);
    if (packmap_refused(job->answer))
        return;
    job->listing = malloc(job->answer);
    if (job->listing)
        memcpy(job->listing, listing, job->answer);
    else
        job->error = ENOMEM;
}

static void *serve(void *unused) {
    (void)unused;
    for (struct job *job; (job = take());)
        serve_one(job);
    return NULL;
}

/* All jobs, on as many threads as can be had: this one, and others beside it. */
static void serve_all(int threads) {
    pthread_t others[MOST_THREADS];
    int started = 0;
    while (started < threads - 1 && pthread_create(&others[started], NULL, serve, NULL) == 0)
        started++;
    serve(NULL);
    while (started > 0)
        pthread_join(others[--started], NULL);
}

/* Prints a job's listing, or why there is none; whether there is one. */
static int tell(const struct job *job) {
    if (job->error) {
        fprintf(stderr, "%s: %s\n", job->name, strerror(job->error));
        return 0;
    }
    if (!packmap_refused(job->answer))
        return fwrite(job->listing, 1, job->answer, stdout) == job->answer;
    fprintf(stderr, "%s: refused with %u", job->name, packmap_number(job->answer));
    if (packmap_line(job->answer) > 0)
        fprintf(stderr, " at line %u", packmap_line(job->answer));
    fprintf(stderr, ": %s\n", packmap_words(packmap_number(job->answer)));
    return 0;
}

int main(int count, char **words) {
    int first = 1;
    long threads = 1;
    if (count > 1 && strcmp(words[1], "-j") == 0) {
        char *end = NULL;
        threads = count > 2 ? strtol(words[2], &end, 10) : 0;
        if (!end || *end != '\0')
            threads = 0;
        first = 3;
    }
    if (threads < 1 || threads > MOST_THREADS || first >= count) {
        fprintf(stderr, "service [-j THREADS] FILE..\n");
        return 2;
    }
    job_count = (size_t)(count - first);
    jobs = calloc(job_count, sizeof *jobs);
    if (!jobs) {
        perror("service");
        return 1;
    }
    for (size_t k = 0; k < job_count; k++)
        jobs[k].name = words[first + (int)k];
    serve_all((int)threads);
    int listed = 1;
    for (size_t k = 0; k < job_count; k++) {
        listed &= tell(&jobs[k]);
        free(jobs[k].listing);
    }
    free(jobs);
    return !listed;
}
