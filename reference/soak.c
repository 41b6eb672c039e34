/*
 * Writes random scripts (docs/FORMATS.md, "Scripts"), and what `dmr_trunk --script` has to print of them, by the site of site.h.
 * The command `reference/soak` runs it, and compares.
 *
 *     soak SCENE VERSION INPUTS SEED FOLDER         writes site.toml, script and printed to a folder, and prints how often each
 *                                                   row was reached
 *     soak SCENE VERSION INPUTS SEED --find P AT    prints the input, by its line in the script, that puts out octet AT of party P:
 *                                                   a carrier, or 16 for the operators
 *     soak --rows                                   prints the rows
 *
 * SCENE is two or sixteen, VERSION the greatest version of the link that the site serves.
 */
#define SOAK
#include "plan.h"
#include "traffic.h"

enum { REFUSED_WORDS = 2, CONTRADICTS = 3, NO_MEMORY = 4, NO_FILE = 5 };

typedef struct {
    Scene *scene;
    Play play;
    Traffic *traffic;
    FILE *script;
    unsigned long lines;
} Run;

static void fail(int status, const char *why) {
    fprintf(stderr, "soak: %s\n", why);
    exit(status);
}

/* ---- the input */

static void take_piece_of(Run *run, const Input *input) {
    uint8_t octets[STREAM_ROOM];
    take_piece(run->traffic, input, octets);
    if (input->party == OPERATORS) fputs("text ", run->script);
    else fprintf(run->script, "bytes %d ", input->party);
    write_hex(run->script, octets, input->count);
    putc('\n', run->script);
    if (input->party == OPERATORS) play_text(&run->play, octets, input->count);
    else play_octets(&run->play, input->party, octets, input->count);
}

static void take_input(Run *run, const Input *input) {
    run->lines++;
    if (input->kind == PIECE) {
        take_piece_of(run, input);
    } else if (input->kind == TICK) {
        fputs("tick\n", run->script);
        play_tick(&run->play);
    } else {
        fprintf(run->script, "%s %d\n", input->kind == OPEN ? "open" : "cut", input->party);
        play_turn(&run->play, input->party, input->kind == OPEN);
    }
}

/* Takes all that a party has written. */
static void take_all(Run *run, int party) {
    Input input = {PIECE, party, stream_of(run->traffic, party)->count};
    if (input.count) take_input(run, &input);
}

/* Connects the control carrier, and registers the radios that are registered at first. */
static void register_first(Run *run) {
    Traffic *traffic = run->traffic;
    const Plan *plan = &run->scene->plan;
    Input open = {OPEN, plan->control, 0};
    if (!run->scene->at_first) return;
    take_input(run, &open);
    say_hello(traffic, plan->control);
    for (uint32_t i = 0; i < run->scene->at_first; i++) {
        uint8_t pdu[10];
        write_registration(pdu, plan, plan->radios[0].first + i, true);
        traffic->numbers[plan->control]++;
        send_pdu(traffic, control_slot(run->play.site), pdu);
        write_poll(traffic, plan->control);
        if (stream_of(traffic, plan->control)->count > MOST_PIECE / 2) take_all(run, plan->control);
    }
    take_all(run, plan->control);
}

/* ---- a run */

static Scene *scene_of(const char *name) {
    for (int i = 0; i < SCENES; i++)
        if (!strcmp(scenes[i].name, name)) return &scenes[i];
    fail(REFUSED_WORDS, "SCENE is two or sixteen");
    return 0;
}

static FILE *open_in(const char *folder, const char *name) {
    char path[4096];
    FILE *file;
    snprintf(path, sizeof path, "%s/%s", folder, name);
    file = fopen(path, "w");
    if (!file) fail(NO_FILE, path);
    return file;
}

static void close_file(FILE *file) {
    if (ferror(file) | fclose(file)) fail(NO_FILE, "a file cannot be written");
}

static Run new_run(char **words, FILE *script) {
    Run run = {.scene = scene_of(words[0]), .script = script, .traffic = calloc(1, sizeof *run.traffic)};
    run.scene->plan.link_version = atoi(words[1]);
    run.play = new_play(&run.scene->plan);
    if (!run.traffic) fail(NO_MEMORY, "out of memory");
    *run.traffic = (Traffic){.scene = run.scene, .site = run.play.site, .left = 300};
    memset(run.traffic->versions, 1, sizeof run.traffic->versions);
    seed_words(strtoull(words[3], 0, 10));
    register_first(&run);
    return run;
}

static void free_run(Run *run) {
    free(run->traffic);
    free_play(&run->play);
}

static void print_rows(bool counts) {
    static const char *const words[] = {
#define WORDS_OF(name, words) words,
        ALL_ROWS(WORDS_OF)};
    for (int row = 0; row < ROW_COUNT; row++) {
        if (counts) printf("%lu ", reached[row]);
        puts(words[row]);
    }
}

static int write_run(char **words) {
    FILE *site_file = open_in(words[4], "site.toml"), *script = open_in(words[4], "script"), *printed = open_in(words[4], "printed");
    Run run = new_run(words, script);
    unsigned long inputs = strtoul(words[2], 0, 10);
    while (run.lines < inputs) {
        Input input = next_input(run.traffic);
        if (input.kind != PIECE || input.count) take_input(&run, &input);
    }
    write_site_file(&run.scene->plan, site_file);
    write_printed(&run.play, printed);
    close_file(site_file);
    close_file(script);
    close_file(printed);
    print_rows(true);
    free_run(&run);
    return 0;
}

static int find_input(char **words) {
    FILE *nothing = fopen("/dev/null", "w");
    unsigned long inputs = strtoul(words[2], 0, 10), at = strtoul(words[6], 0, 10);
    int party = atoi(words[5]);
    if (!nothing || party < 0 || party >= PARTIES) return REFUSED_WORDS;
    Run run = new_run(words, nothing);
    while (run.lines < inputs && run.play.outputs[party].count <= at) {
        Input input = next_input(run.traffic);
        if (input.kind != PIECE || input.count) take_input(&run, &input);
    }
    printf("%lu\n", run.lines);
    fclose(nothing);
    free_run(&run);
    return 0;
}

/* Ends the program if the reference does not code the worked bursts of docs/FORMATS.md, "Test vectors". */
static void check_vectors(void) {
    static const struct {
        uint8_t pdu[10], burst[BURST_OCTETS];
    } vectors[] = {
        {{0x9F, 0x00, 0x02, 0x0E, 0xFF, 0xFE, 0xC6, 0x00, 0x03, 0xE9},
         {0x0E, 0xB4, 0x9C, 0xDF, 0x34, 0xF2, 0x74, 0x9C, 0xEC, 0xBA, 0x5C, 0xB3, 0xB7,
          0xC4, 0x0E, 0x88, 0x13, 0x8C, 0x9A, 0x38, 0xF9, 0x62, 0x48, 0xE1, 0x80}},
        {{0xA0, 0x00, 0x00, 0xC4, 0x00, 0x03, 0xE9, 0xFF, 0xFE, 0xC6},
         {0x41, 0xC3, 0x02, 0x8A, 0x48, 0xFC, 0x8F, 0x40, 0x3D, 0xC0, 0x6F, 0x00, 0xED,
          0xA0, 0xF7, 0x83, 0xE4, 0x97, 0x54, 0x2E, 0x40, 0x5C, 0xB8, 0x3C, 0xB0}},
        {{0x99, 0x00, 0x00, 0x00, 0x11, 0x12, 0x34, 0x00, 0x00, 0x00},
         {0x00, 0x3C, 0x16, 0x27, 0x11, 0x60, 0x0B, 0x78, 0x15, 0x58, 0x08, 0x90, 0x05,
          0x03, 0x05, 0x86, 0x22, 0x80, 0x42, 0x10, 0x79, 0x00, 0x5A, 0x23, 0x10}},
    };
    for (size_t i = 0; i < sizeof vectors / sizeof *vectors; i++) {
        uint8_t burst[BURST_OCTETS];
        write_burst(vectors[i].pdu, burst);
        if (memcmp(burst, vectors[i].burst, BURST_OCTETS)) fail(CONTRADICTS, "the reference does not code the worked bursts");
    }
}

int main(int argc, char **argv) {
    bool finds = argc == 8 && !strcmp(argv[5], "--find");
    make_coder_tables();
    check_vectors();
    if (argc == 2 && !strcmp(argv[1], "--rows")) return print_rows(false), 0;
    if (argc == 6) return write_run(argv + 1);
    if (finds) return find_input(argv + 1);
    fputs("soak: SCENE VERSION INPUTS SEED FOLDER, or SCENE VERSION INPUTS SEED --find PARTY AT, or --rows\n", stderr);
    return REFUSED_WORDS;
}
