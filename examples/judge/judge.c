/* use: judge audit|merge FILE..

   Judges the records in files, each on its own thread, and prints a line for each file: the kind of the report and its three
   numbers. After the line of an order or a cycle it prints its entries, one on a line: the CPU and the entry.

   Status: 0; 2 for wrong words; 3 if a file can't be read, or memory or a thread is refused. */
#include "mc2_judge.h"
#include <pthread.h>
#include <stdio.h>
#include <stdlib.h>
#include <string.h>

/* 64 CPUs of 10,000 entries. */
#define MOST_ENTRIES 640000

struct job {
    const char *file;
    int merges;
    unsigned char *text;
    size_t length;
    struct mc2_entry_id *order;
    struct mc2_report report;
};

static void fail(const char *what) {
    perror(what);
    exit(3);
}

static void *get(size_t bytes) {
    void *memory = malloc(bytes ? bytes : 1);
    if (!memory)
        fail("memory");
    return memory;
}

/* Reads the file to its end. */
static void read_text(struct job *job) {
    FILE *file = fopen(job->file, "rb");
    if (!file || fseek(file, 0, SEEK_END) != 0)
        fail(job->file);
    long length = ftell(file);
    if (length < 0)
        fail(job->file);
    rewind(file);
    job->length = (size_t)length;
    job->text = get(job->length);
    if (fread(job->text, 1, job->length, file) != job->length)
        fail(job->file);
    fclose(file);
}

static void *judge(void *at) {
    struct job *job = at;
    if (job->merges)
        mc2_merge(job->text, job->length, job->order, MOST_ENTRIES, &job->report);
    else
        mc2_audit(job->text, job->length, &job->report);
    return NULL;
}

static void print(const struct job *job) {
    const struct mc2_report *report = &job->report;
    printf("%u %llu %llu %llu\n", (unsigned)report->kind, (unsigned long long)report->first, (unsigned long long)report->second,
           (unsigned long long)report->third);
    if (!job->merges || (report->kind != MC2_SOUND && report->kind != MC2_CYCLE))
        return;
    for (uint64_t i = 0; i < report->first; ++i)
        printf("%llu %llu\n", (unsigned long long)job->order[i].cpu, (unsigned long long)job->order[i].entry);
}

static void open_job(struct job *job, const char *file, int merges) {
    job->file = file;
    job->merges = merges;
    job->order = get(merges ? MOST_ENTRIES * sizeof *job->order : 1);
    read_text(job);
}

static void close_job(struct job *job) {
    print(job);
    free(job->text);
    free(job->order);
}

int main(int count, char **words) {
    int merges = count > 1 && strcmp(words[1], "merge") == 0;
    if (count < 3 || (!merges && strcmp(words[1], "audit") != 0)) {
        fputs("use: judge audit|merge FILE..\n", stderr);
        return 2;
    }
    size_t files = (size_t)count - 2;
    struct job *jobs = get(files * sizeof *jobs);
    pthread_t *threads = get(files * sizeof *threads);
    for (size_t i = 0; i < files; ++i)
        open_job(&jobs[i], words[i + 2], merges);
    for (size_t i = 0; i < files; ++i)
        if (pthread_create(&threads[i], NULL, judge, &jobs[i]) != 0)
            fail("thread");
    for (size_t i = 0; i < files; ++i)
        pthread_join(threads[i], NULL);
    for (size_t i = 0; i < files; ++i)
        close_job(&jobs[i]);
    free(threads);
    free(jobs);
    return 0;
}
