/* A PKCS#11 library in front of another one: it writes down each login, so that a test can count them.
 *
 * COUNTED_TOKEN is the other library, COUNTED_LOGINS the file that gets a letter a login: y if the PIN was right, n if not.
 * Build: cc -shared -fPIC -o counting_token.so counting_token.c */
#include <dlfcn.h>
#include <fcntl.h>
#include <stdlib.h>
#include <string.h>
#include <unistd.h>

/* The functions of PKCS#11 2.40, in the order of their list; which of them are replaced. */
#define FUNCTIONS 68
#define GET_FUNCTION_LIST 3
#define LOGIN 18

struct list {
    unsigned char version[2];
    void *functions[FUNCTIONS];
};
typedef unsigned long (*get_list)(struct list **);
typedef unsigned long (*login)(unsigned long, unsigned long, unsigned char *, unsigned long);

static struct list own;
static login real_login;

static unsigned long counted_login(unsigned long session, unsigned long user, unsigned char *pin, unsigned long length)
{
    unsigned long found = real_login(session, user, pin, length);
    int file = open(getenv("COUNTED_LOGINS"), O_WRONLY | O_APPEND | O_CREAT, 0600);
    if (file < 0 || write(file, found ? "n" : "y", 1) != 1)
        abort();
    close(file);
    return found;
}

unsigned long C_GetFunctionList(struct list **found)
{
    struct list *real;
    void *library = dlopen(getenv("COUNTED_TOKEN"), RTLD_NOW | RTLD_LOCAL);
    get_list get = library ? (get_list)dlsym(library, "C_GetFunctionList") : NULL;
    unsigned long fault = get ? get(&real) : 5;
    if (fault)
        return fault;
    memcpy(&own, real, sizeof own);
    real_login = (login)own.functions[LOGIN];
    own.functions[GET_FUNCTION_LIST] = (void *)C_GetFunctionList;
    own.functions[LOGIN] = (void *)counted_login;
    *found = &own;
    return 0;
}
