/* host PLUGIN..: a program with functions of the library's names. It loads plugins that are linked
 * with the library, so that all can see each other's exports. Each plugin has to use its own
 * functions and its own heap. */
#include "check.h"

#include <dlfcn.h>
#include <stdlib.h>

enum { MOST = 4 };

/* Plugins would call this if they did not hide their own. */
void rattle_alloc(void), rattle_realloc(void), rattle_dealloc(void), galliumtoad_card_new(void);
void rattle_alloc(void) { abort(); }
void rattle_realloc(void) { abort(); }
void rattle_dealloc(void) { abort(); }
void galliumtoad_card_new(void) { abort(); }

static struct {
    unsigned (*status)(void);
    size_t (*peak)(void), (*taken)(void);
} plugins[MOST];

static void load(size_t i, const char *name) {
    void *loaded = dlopen(name, RTLD_NOW | RTLD_GLOBAL);
    if (!loaded) {
        printf("%s\n", dlerror());
        exit(1);
    }
    *(void **)&plugins[i].status = dlsym(loaded, "plugin_status");
    *(void **)&plugins[i].peak = dlsym(loaded, "plugin_peak");
    *(void **)&plugins[i].taken = dlsym(loaded, "plugin_taken");
}

int main(int argc, char **argv) {
    const size_t count = (size_t)argc - 1;
    size_t i, j, before[MOST];
    if (count < 2 || count > MOST) return 2;
    for (i = 0; i < count; i++) load(i, argv[i + 1]);
    for (i = 0; i < count; i++) {
        for (j = 0; j < count; j++) before[j] = plugins[j].peak();
        CHECK(plugins[i].status(), 0x9000);
        for (j = 0; j < count; j++)
            if (j != i) CHECK(plugins[j].peak(), before[j]);
        CHECK(plugins[i].peak() > 0, 1);
        CHECK(plugins[i].taken(), 0);
    }
    return check_result("host");
}
