/* Iterations of GLib that don't block, idle or with two sources that are made ready and a timer source each. */
#include <glib.h>
#include <stdio.h>
#include <string.h>

static unsigned long bottoms, handlers, timers;

static gboolean bottom(gpointer source) { bottoms++; g_source_set_ready_time(source, -1); return G_SOURCE_CONTINUE; }
static gboolean handler(gpointer source) { handlers++; g_source_set_ready_time(source, -1); return G_SOURCE_CONTINUE; }
static gboolean expired(gpointer source) { (void)source; timers++; return G_SOURCE_CONTINUE; }

static gboolean dispatch(GSource *source, GSourceFunc call, gpointer data) { (void)source; return call(data); }
static GSourceFuncs functions = { NULL, NULL, dispatch, NULL, NULL, NULL };

static GSource *source(GMainContext *context, GSourceFunc call) {
    GSource *made = g_source_new(&functions, sizeof(GSource));
    g_source_set_callback(made, call, made, NULL);
    g_source_attach(made, context);
    return made;
}

int main(int argc, char **argv) {
    int busy = argc > 1 && !strcmp(argv[1], "busy"), idle = argc > 1 && !strcmp(argv[1], "idle");
    unsigned long rounds = busy ? 200000 : idle ? 1000000 : 0;
    GMainContext *context = g_main_context_new();
    GSource *half = source(context, bottom), *event = source(context, handler);
    GSource *timer = g_timeout_source_new(busy ? 0 : 1000000000);
    g_source_set_callback(timer, expired, timer, NULL);
    g_source_attach(timer, context);
    g_main_context_acquire(context);
    for (unsigned long i = 0; i < rounds; i++) {
        if (busy) {
            g_source_set_ready_time(half, 0);
            g_source_set_ready_time(event, 0);
        }
        g_main_context_iteration(context, FALSE);
    }
    printf("%s turns: %lu rounds, %lu bottom halves, %lu handlers, %lu timers\n", busy ? "busy" : "idle", rounds, bottoms, handlers, timers);
    return 0;
}
