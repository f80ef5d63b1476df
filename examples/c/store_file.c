/*
 * A store in a file, as a control unit keeps one on its device and as `keytool load` keeps one: made, shown, and loaded with a key.
 *
 *     store_file make FILE ID:DIRECTION:BOUND..    makes a store with a cell for each route, the first after the fourteen slots; the file
 *                                                  is 65,536 bytes long
 *     store_file show FILE ID:DIRECTION..          checks the store, and prints which slots hold a key and the bound of each route
 *     store_file load FILE UID M1M2M3              loads the update of these 64 bytes, and prints M4 and M5 or the status of the refusal
 *
 * All numbers are hexadecimal: ID has four digits, BOUND sixteen, UID thirty; DIRECTION is 1 (sends) or 2 (receives).
 */
#include <inttypes.h>
#include <stdio.h>
#include <stdlib.h>
#include <string.h>

#include "rathonsi_store.h"

enum { MOST = 256, DISK = 65536 };

static uint8_t disk[DISK];
static RathonsiRoute routes[MOST];
static uint64_t bounds[MOST];

static int stop(const char *what, int32_t status) {
    fprintf(stderr, "store_file: %s: status %d\n", what, (int)status);
    return 1;
}

static int read_bytes(const char *word, uint8_t *bytes, size_t length) {
    if (strlen(word) != 2 * length)
        return 0;
    for (size_t i = 0; i < length; i++) {
        unsigned byte;
        if (sscanf(word + 2 * i, "%2x", &byte) != 1)
            return 0;
        bytes[i] = (uint8_t)byte;
    }
    return 1;
}

static void print_bytes(const void *from, size_t length, char behind) {
    const uint8_t *bytes = from;
    for (size_t i = 0; i < length; i++)
        printf("%02x", bytes[i]);
    printf("%c", behind);
}

/* The routes that the arguments name; -1 if one of them names none. */
static int read_routes(int count, char **words) {
    if (count > MOST)
        return -1;
    for (int i = 0; i < count; i++) {
        unsigned id, direction;
        if (sscanf(words[i], "%4x:%1u:%16" SCNx64, &id, &direction, &bounds[i]) < 2)
            return -1;
        memset(&routes[i], 0, sizeof routes[i]);
        routes[i].data_id = (uint16_t)id;
        routes[i].direction = (uint8_t)direction;
        routes[i].cell = (uint16_t)(RATHONSI_SLOT_CELLS + (unsigned)i);
        routes[i].reserve = 1;
        routes[i].window = 1;
        routes[i].slot = 4;
    }
    return count;
}

static int make(const char *name, int count) {
    size_t size = RATHONSI_STORE_SIZE((size_t)count);
    int32_t status = rathonsi_store_make(disk, size);
    for (int i = 0; i < count && status == RATHONSI_OK; i++)
        status = rathonsi_route_make(&routes[i], bounds[i], disk, size);
    if (status != RATHONSI_OK)
        return stop("make", status);
    FILE *file = fopen(name, "wb");
    if (file == NULL || fwrite(disk, 1, DISK, file) != DISK || fclose(file) != 0) {
        perror(name);
        return 2;
    }
    return 0;
}

static int show(const char *name, int count) {
    size_t size = RATHONSI_STORE_SIZE((size_t)count);
    FILE *file = fopen(name, "rb");
    if (file == NULL || fread(disk, 1, size, file) != size) {
        perror(name);
        return 2;
    }
    fclose(file);
    int32_t status = rathonsi_store_check(disk, size);
    if (status != RATHONSI_OK)
        return stop("check", status);
    for (unsigned slot = 0; slot < RATHONSI_SLOT_CELLS; slot++) {
        uint8_t uid[15] = {0}, m1[16] = {0};
        RathonsiReply reply;
        m1[15] = (uint8_t)(slot * 16);
        status = rathonsi_slot_confirm(uid, m1, disk, size, &reply);
        if (status != RATHONSI_OK && status != RATHONSI_KEY_EMPTY)
            return stop("a slot", status);
        if (status == RATHONSI_OK)
            printf("slot %u: a key\n", slot);
    }
    for (int i = 0; i < count; i++) {
        status = rathonsi_route_open(&routes[i], disk, size);
        if (status != RATHONSI_OK)
            return stop("a route", status);
        printf("%04x %s: bound %016" PRIx64 "\n", (unsigned)routes[i].data_id, routes[i].direction == RATHONSI_SENDS ? "sends" : "receives",
               routes[i].counter);
    }
    return 0;
}

/* Each write of the plan is in the file before the next. */
static int do_plan(FILE *file, const RathonsiPlan *plan) {
    for (int i = 0; i < 3; i++) {
        const RathonsiWrite *write = &plan->writes[i];
        if (write->length != 0
            && (fseek(file, (long)write->offset, SEEK_SET) != 0 || fwrite(write->bytes, 1, write->length, file) != write->length
                || fflush(file) != 0))
            return 0;
    }
    return 1;
}

static int load(const char *name, const char *uid_word, const char *request_word) {
    uint8_t uid[15];
    RathonsiRequest request;
    RathonsiReply reply;
    RathonsiPlan plan;
    size_t size = RATHONSI_STORE_SIZE(0);
    FILE *file = fopen(name, "r+b");
    memset(&plan, 0, sizeof plan);
    if (!read_bytes(uid_word, uid, sizeof uid) || !read_bytes(request_word, (uint8_t *)&request, sizeof request))
        return stop("the words", RATHONSI_BAD_LENGTH);
    if (file == NULL || fread(disk, 1, size, file) != size) {
        perror(name);
        return 2;
    }
    int32_t status = rathonsi_slot_load(uid, 0, &request, disk, size, &plan);
    if (status != RATHONSI_OK) {
        printf("refused %d\n", (int)status);
        return fclose(file);
    }
    if (!do_plan(file, &plan) || fclose(file) != 0) {
        perror(name);
        return 2;
    }
    status = rathonsi_store_done(disk, size, &plan);
    if (status == RATHONSI_OK)
        status = rathonsi_slot_confirm(uid, request.m1, disk, size, &reply);
    if (status != RATHONSI_OK)
        return stop("confirm", status);
    printf("loaded ");
    print_bytes(&reply, 32, ' ');
    print_bytes((const uint8_t *)&reply + 32, 16, '\n');
    return 0;
}

int main(int count, char **words) {
    if (count == 5 && strcmp(words[1], "load") == 0)
        return load(words[2], words[3], words[4]);
    int found = count < 3 ? -1 : read_routes(count - 3, words + 3);
    if (found >= 0 && strcmp(words[1], "make") == 0)
        return make(words[2], found);
    if (found >= 0 && strcmp(words[1], "show") == 0)
        return show(words[2], found);
    fprintf(stderr, "usage: store_file make FILE ID:DIRECTION:BOUND.. | show FILE ID:DIRECTION.. | load FILE UID M1M2M3\n");
    return 2;
}
