/* What is said on standard error, and the exit statuses. */
#ifndef SAY_H
#define SAY_H

enum { WELL = 0, FOUND = 1, COULD_NOT = 2 };

/* Who speaks: gwo and the command. */
extern const char *said_by;

/* A line on standard error, in printf's form, the speaker before it. */
__attribute__((format(printf, 1, 2))) void say(const char *form, ...);

/* The same where it could not be done: COULD_NOT. */
__attribute__((format(printf, 1, 2))) int could_not(const char *form, ...);

/* A file, or standard output, and why the system refuses it (errno): COULD_NOT. */
int refused_by_system(const char *name);

#endif
