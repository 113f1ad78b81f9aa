/* Shows a page in WebKit for some seconds and looks at a snapshot of it: page URL RED GREEN BLUE. Status 0 where the middle of the
 * snapshot has about this colour. */
#include <stdlib.h>
#include <webkit2/webkit2.h>

static int wanted[3], status = 1;
static GtkWidget *window;
static int tries = 20;

static gboolean look(gpointer data);

static void seen(GObject *object, GAsyncResult *result, gpointer data) {
    cairo_surface_t *surface = webkit_web_view_get_snapshot_finish(WEBKIT_WEB_VIEW(object), result, NULL);
    if (surface != NULL) {
        cairo_surface_t *image = cairo_image_surface_create(CAIRO_FORMAT_RGB24, 320, 240);
        cairo_t *cairo = cairo_create(image);
        cairo_set_source_surface(cairo, surface, 0, 0);
        cairo_paint(cairo);
        cairo_surface_flush(image);
        unsigned char *at = cairo_image_surface_get_data(image) + 120 * cairo_image_surface_get_stride(image) + 160 * 4;
        status = abs(at[2] - wanted[0]) > 40 || abs(at[1] - wanted[1]) > 40 || abs(at[0] - wanted[2]) > 40;
        g_print("middle %d %d %d\n", at[2], at[1], at[0]);
        if (status == 0)
            cairo_surface_write_to_png(image, "page.png");
        cairo_destroy(cairo);
        cairo_surface_destroy(image);
        cairo_surface_destroy(surface);
    }
    if (status == 0 || --tries == 0)
        gtk_main_quit();
    else
        g_timeout_add(1000, look, data);
}

static gboolean look(gpointer data) {
    webkit_web_view_get_snapshot(WEBKIT_WEB_VIEW(data), WEBKIT_SNAPSHOT_REGION_VISIBLE, WEBKIT_SNAPSHOT_OPTIONS_NONE, NULL, seen, data);
    return G_SOURCE_REMOVE;
}

int main(int count, char **words) {
    gtk_init(&count, &words);
    if (count < 5)
        return 2;
    for (int k = 0; k < 3; k++)
        wanted[k] = atoi(words[2 + k]);
    window = gtk_window_new(GTK_WINDOW_TOPLEVEL);
    gtk_window_set_default_size(GTK_WINDOW(window), 320, 240);
    GtkWidget *view = webkit_web_view_new();
    WebKitSettings *settings = webkit_web_view_get_settings(WEBKIT_WEB_VIEW(view));
    webkit_settings_set_media_playback_requires_user_gesture(settings, FALSE);
    webkit_settings_set_hardware_acceleration_policy(settings, WEBKIT_HARDWARE_ACCELERATION_POLICY_NEVER);
    gtk_container_add(GTK_CONTAINER(window), view);
    webkit_web_view_load_uri(WEBKIT_WEB_VIEW(view), words[1]);
    gtk_widget_show_all(window);
    g_timeout_add(3000, look, view);
    gtk_main();
    return status;
}
