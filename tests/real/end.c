/* end A|B PORT numbers|titles FILE..: one end of the dialogues of these files (docs/FORMAT.md, lines of digits), as a user of
 * the SCCP of libosmo-sigtran. It is an ASP (RFC 4666) of the transfer point at 127.0.0.1, says "ready" when it is active, and
 * begins at a line of standard input. Both ends keep the order of a file's lines: an end sends its next line, as N-UNITDATA
 * (Q.711), when it has sent or received all before it. With `numbers` the files go one after the other, and B has a subsystem
 * number for each; with `titles` they go side by side, and both ends have a global title for each. The status is 0 when all
 * lines have passed; 1 where another message comes, or a signal where none came for a minute. */
#include <stdbool.h>
#include <stdio.h>
#include <stdlib.h>
#include <string.h>
#include <unistd.h>

#include <osmocom/core/application.h>
#include <osmocom/core/logging.h>
#include <osmocom/core/select.h>
#include <osmocom/core/timer.h>
#include <osmocom/core/utils.h>
#include <osmocom/sigtran/osmo_ss7.h>
#include <osmocom/sigtran/sccp_helpers.h>
#include <osmocom/sigtran/sccp_sap.h>

/* The port is that of M3UA (RFC 4666). */
enum { STP_PORT = 2905, A_CODE = 101, B_CODE = 202, A_SSN = 8, B_SSN = 6, FIRST_SSN = 10 };
/* As many files as subsystem numbers below 98, which the capture tool takes for one without TCAP. */
enum { MOST_FILES = 80, MOST_LINES = 100, MOST_OCTETS = 254, PATIENCE = 60, FIRST_WORD = 4 };

struct line {
    char end;
    int count;
    uint8_t octets[MOST_OCTETS];
};

static struct file {
    const char *path;
    struct line lines[MOST_LINES];
    unsigned count, next;
} files[MOST_FILES];

static unsigned file_count, done_count;
static char own_end;
static bool has_titles;
static struct osmo_sccp_instance *sccp;
static struct osmo_timer_list waiting, ending;

static void stop(const char *why, const struct file *file) {
    fprintf(stderr, "end %c: %s: %s, line %u\n", own_end, why, file ? file->path : "no file", file ? file->next : 0);
    exit(1);
}

static void read_lines(struct file *file) {
    char text[2 * MOST_OCTETS + 8];
    FILE *stream = fopen(file->path, "r");
    if (!stream)
        stop("can't be read", file);
    while (fgets(text, sizeof text, stream)) {
        struct line *line = &file->lines[file->count];
        if (text[0] != 'A' && text[0] != 'B')
            continue;
        text[strcspn(text, "\r\n")] = 0;
        line->end = text[0];
        line->count = osmo_hexparse(text + 2, line->octets, sizeof line->octets);
        if (line->count < 1 || ++file->count == MOST_LINES)
            stop("too long, or no digits", file);
    }
    fclose(stream);
}

static unsigned code_of(char end) {
    return end == 'A' ? A_CODE : B_CODE;
}

/* The subsystem number of an end in the dialogues of a file. */
static unsigned ssn_of(char end, const struct file *file) {
    return end == 'A' ? A_SSN : has_titles ? B_SSN : FIRST_SSN + (file - files);
}

static struct osmo_sccp_addr address_of(char end, const struct file *file) {
    struct osmo_sccp_addr address = {0};
    osmo_sccp_make_addr_pc_ssn(&address, code_of(end), ssn_of(end, file));
    if (has_titles) {
        address.presence |= OSMO_SCCP_ADDR_T_GT;
        address.gt.gti = OSMO_SCCP_GTI_TT_NPL_ENC_NAI;
        address.gt.npi = OSMO_SCCP_NPI_E164_ISDN;
        address.gt.nai = OSMO_SCCP_NAI_INTL;
        snprintf(address.gt.digits, sizeof address.gt.digits, "49%d000%02d", end == 'A' ? 170 : 172, (int)(file - files));
    }
    return address;
}

/* Whether an address that came is the one that an end has in a file. */
static bool is_of(const struct osmo_sccp_addr *address, char end, const struct file *file) {
    struct osmo_sccp_addr own = address_of(end, file);
    return !osmo_sccp_addr_cmp(address, &own, OSMO_SCCP_ADDR_T_SSN | (has_titles ? OSMO_SCCP_ADDR_T_GT : 0));
}

static void send_line(const struct file *file) {
    const struct line *line = &file->lines[file->next];
    struct osmo_sccp_addr calling = address_of(own_end, file), called = address_of(own_end == 'A' ? 'B' : 'A', file);
    struct osmo_sccp_user *user = osmo_sccp_user_find(sccp, calling.ssn, calling.pc);
    if (!user || osmo_sccp_tx_unitdata(user, &calling, &called, line->octets, line->count) < 0)
        stop("it can't be sent", file);
}

/* Sends the lines of a file whose turn it is; and behind its last line those of the next file, where they go one by one. */
static void go_on(struct file *file) {
    alarm(PATIENCE);
    for (; file->next < file->count && file->lines[file->next].end == own_end; file->next++)
        send_line(file);
    if (file->next < file->count)
        return;
    if (++done_count == file_count)
        /* What was sent last waits for the loop to be written. */
        osmo_timer_schedule(&ending, 0, 300000);
    else if (!has_titles)
        go_on(file + 1);
}

static void end_well(void *unused) {
    (void)unused;
    exit(0);
}

static void take(const struct osmo_scu_unitdata_param *given, struct msgb *message) {
    char peer = own_end == 'A' ? 'B' : 'A';
    struct file *file = files;
    while (file < files + file_count && !(is_of(&given->called_addr, own_end, file) && is_of(&given->calling_addr, peer, file)))
        file++;
    if (file == files + file_count)
        stop("a message for nobody", NULL);
    struct line *line = &file->lines[file->next];
    if (file->next == file->count || line->end == own_end || msgb_l2len(message) != (unsigned)line->count
        || memcmp(msgb_l2(message), line->octets, line->count))
        stop("another message came", file);
    file->next++;
    go_on(file);
}

static int received(struct osmo_prim_hdr *header, void *user) {
    struct osmo_scu_prim *prim = (struct osmo_scu_prim *)header;
    (void)user;
    if (header->primitive == OSMO_SCU_PRIM_N_UNITDATA && header->operation == PRIM_OP_INDICATION)
        take(&prim->u.unitdata, header->msg);
    else if (header->primitive == OSMO_SCU_PRIM_N_NOTICE)
        stop("a message came back", NULL);
    msgb_free(header->msg);
    return 0;
}

static void begin_when_active(void *as) {
    if (!osmo_ss7_as_active(as)) {
        osmo_timer_schedule(&waiting, 0, 20000);
        return;
    }
    puts("ready");
    fflush(stdout);
    if (getchar() == EOF)
        stop("nobody said that both are ready", NULL);
    for (unsigned number = 0; number < (has_titles ? file_count : 1); number++)
        go_on(&files[number]);
}

static void connect_to_stp(int port) {
    sccp = osmo_sccp_simple_client(NULL, own_end == 'A' ? "A" : "B", code_of(own_end), OSMO_SS7_ASP_PROT_M3UA, port, "127.0.0.1",
                                   STP_PORT, "127.0.0.1");
    if (!sccp)
        stop("no client of the transfer point", NULL);
    for (struct file *file = files; file < files + file_count; file++)
        if (!osmo_sccp_user_find(sccp, ssn_of(own_end, file), code_of(own_end))
            && !osmo_sccp_user_bind_pc(sccp, "TCAP", received, ssn_of(own_end, file), code_of(own_end)))
            stop("no user of SCCP", file);
}

int main(int count, char **words) {
    if (count < FIRST_WORD + 1 || count - FIRST_WORD > MOST_FILES)
        return 4;
    own_end = words[1][0];
    has_titles = !strcmp(words[3], "titles");
    for (; (int)file_count < count - FIRST_WORD; file_count++) {
        files[file_count].path = words[file_count + FIRST_WORD];
        read_lines(&files[file_count]);
    }
    alarm(PATIENCE);
    osmo_init_logging2(NULL, &(struct log_info){0});
    osmo_ss7_init();
    connect_to_stp(atoi(words[2]));
    osmo_timer_setup(&ending, end_well, NULL);
    osmo_timer_setup(&waiting, begin_when_active,
                     osmo_ss7_as_find_by_proto(osmo_sccp_get_ss7(sccp), OSMO_SS7_ASP_PROT_M3UA));
    begin_when_active(waiting.data);
    for (;;)
        osmo_select_main(0);
}
