/* Reads captures as tshark does, by Wireshark's library libwiretap of version 4.0: the names of files are on standard input, one
 * a line, and for each a line for every packet that tshark tells, and one for the end.
 *
 *   packet OFFSET RECORD INTERFACE SECONDS NANOS LENGTH BYTES
 *   end ERROR OFFSET FORM TEXT
 *
 * OFFSET is where in the file the packet's block or record begins, or the one that wasn't read to its end; it is -1 where the
 * file wasn't opened. RECORD is 0 for a packet of a network. INTERFACE and SECONDS are `-` where there is none. LENGTH and BYTES
 * (in hexadecimal digits, `-` for none) are what was captured. ERROR is 0 at the end of a file, and else Wireshark's number of
 * the error, with its TEXT; FORM is the format that Wireshark takes the file for, `-` where it takes it for none.
 *
 * cc -O2 -o read_wiretap read_wiretap.c $(pkg-config --cflags --libs glib-2.0 wireshark) -lwiretap */
#include <glib.h>
#include <inttypes.h>
#include <stdio.h>
#include <stdlib.h>
#include <string.h>
#include <wiretap/wtap.h>
#include <wsutil/buffer.h>
#include <wsutil/filesystem.h>
#include <wsutil/privileges.h>
#include <wsutil/wslog.h>

/* tshark takes the names and the secrets of a capture, so the library has to read these blocks for us too. */
static void new_four(const guint address, const gchar *name)
{
    (void)address, (void)name;
}

static void new_six(const void *address, const gchar *name)
{
    (void)address, (void)name;
}

static void new_secrets(guint32 kind, const void *secrets, guint size)
{
    (void)kind, (void)secrets, (void)size;
}

/* How many bytes of a record were captured, as tshark's frame.cap_len. */
static guint32 length_of(const wtap_rec *record)
{
    switch (record->rec_type) {
    case REC_TYPE_PACKET:
        return record->rec_header.packet_header.caplen;
    case REC_TYPE_SYSCALL:
        return record->rec_header.syscall_header.event_filelen;
    case REC_TYPE_SYSTEMD_JOURNAL_EXPORT:
        return record->rec_header.systemd_journal_export_header.record_len;
    case REC_TYPE_CUSTOM_BLOCK:
        return record->rec_header.custom_block_header.length;
    default:
        return record->rec_header.ft_specific_header.record_len;
    }
}

static void print_packet(gint64 offset, const wtap_rec *record, Buffer *bytes)
{
    static const char digits[] = "0123456789ABCDEF";
    guint32 length = length_of(record);
    gboolean packet = record->rec_type == REC_TYPE_PACKET;
    printf("packet %" PRId64 " %u ", offset, record->rec_type);
    if (packet && record->presence_flags & WTAP_HAS_INTERFACE_ID)
        printf("%u ", record->rec_header.packet_header.interface_id);
    else
        printf("- ");
    if (record->presence_flags & WTAP_HAS_TS)
        printf("%" PRId64 " %d ", (gint64)record->ts.secs, record->ts.nsecs);
    else
        printf("- 0 ");
    printf("%u ", length);
    for (guint32 at = 0; packet && at < length; at++) {
        guint8 byte = ws_buffer_start_ptr(bytes)[at];
        putchar(digits[byte >> 4]);
        putchar(digits[byte & 15]);
    }
    puts(packet && length ? "" : "-");
}

static void print_end(int error, const char *text, gint64 offset, wtap *file)
{
    printf("end %d %" PRId64 " %s %s\n", error, offset, file ? wtap_file_type_subtype_name(wtap_file_type_subtype(file)) : "-",
           text ? text : error ? wtap_strerror(error) : "");
}

static void read_file(const char *name)
{
    int error = 0;
    gchar *text = NULL;
    gint64 offset = -1;
    wtap_rec record;
    Buffer bytes;
    wtap *file = wtap_open_offline(name, WTAP_TYPE_AUTO, &error, &text, FALSE);
    if (file) {
        wtap_set_cb_new_ipv4(file, new_four);
        wtap_set_cb_new_ipv6(file, new_six);
        wtap_set_cb_new_secrets(file, new_secrets);
        wtap_rec_init(&record);
        ws_buffer_init(&bytes, 1514);
        while (wtap_read(file, &record, &bytes, &error, &text, &offset)) {
            print_packet(offset, &record, &bytes);
            wtap_rec_reset(&record);
        }
        wtap_rec_cleanup(&record);
        ws_buffer_free(&bytes);
    }
    print_end(error, text, offset, file);
    g_free(text);
    if (file)
        wtap_close(file);
}

int main(int count, char **words)
{
    char name[4096];
    (void)count;
    init_process_policies();
    ws_log_init("read_wiretap", NULL);
    g_free(configuration_init(words[0], NULL));
    wtap_init(TRUE);
    while (fgets(name, sizeof name, stdin)) {
        name[strcspn(name, "\n")] = 0;
        read_file(name);
        fflush(stdout);
    }
    wtap_cleanup();
    return 0;
}
