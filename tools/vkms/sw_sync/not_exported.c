/* What sw_sync has when it is a part of the kernel, and a module lacks. */
#include <linux/module.h>
#include <linux/sync_file.h>

/* The kernel's own is not exported. This one is used for a line of debugfs alone. */
char *sync_file_get_name(struct sync_file *file, char *text, int size) {
    strscpy(text, "?", size);
    return text;
}

MODULE_LICENSE("GPL");
