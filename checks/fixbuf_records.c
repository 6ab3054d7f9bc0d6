/*
 * Reads an IPFIX file stream on standard input with libfixbuf and writes one line per data record to standard output, in
 * the form of `romtyalig show`: the template number, then per field in the order of the template NUMBER=VALUE.
 *
 *     cc -O2 -o fixbuf_records fixbuf_records.c $(pkg-config --cflags --libs libfixbuf)
 *
 * The types, the byte order and the lengths are those of libfixbuf's own model of the IANA elements. A warning of the
 * library, such as that of a message out of sequence, ends the program with a signal.
 */
#include <fixbuf/public.h>
#include <inttypes.h>
#include <stdio.h>
#include <stdlib.h>
#include <string.h>

static void give_up(const char *what, GError *error)
{
    fprintf(stderr, "%s: %s\n", what, error != NULL ? error->message : "no reason given");
    exit(1);
}

/* The template of the same elements, each of the full length that the model gives it, under the same number. */
static void add_internal_template(fbSession_t *session, fbInfoModel_t *model, fbTemplate_t *external, uint16_t number)
{
    GError *error = NULL;
    fbTemplate_t *internal = fbTemplateAlloc(model);
    for (uint32_t i = 0; i < fbTemplateCountElements(external); i++) {
        const fbInfoElement_t *field = fbTemplateGetIndexedIE(external, i);
        const fbInfoElement_t *known = fbInfoModelGetElementByID(model, field->num, field->ent);
        if (known == NULL) {
            give_up("element that the library does not know", NULL);
        }
        fbInfoElement_t element = *known;
        if (!fbTemplateAppend(internal, &element, &error)) {
            give_up("template", error);
        }
    }
    if (fbSessionAddTemplate(session, TRUE, number, internal, &error) != number) {
        give_up("session", error);
    }
}

static void print_value(const fbInfoElement_t *field, const uint8_t *at)
{
    uint8_t one;
    uint16_t two;
    uint32_t four;
    uint64_t eight;

    switch (field->type) {
    case FB_UINT_8:
        memcpy(&one, at, sizeof one);
        printf("%" PRIu8, one);
        break;
    case FB_UINT_16:
        memcpy(&two, at, sizeof two);
        printf("%" PRIu16, two);
        break;
    case FB_UINT_32:
        memcpy(&four, at, sizeof four);
        printf("%" PRIu32, four);
        break;
    case FB_UINT_64:
    case FB_DT_MILSEC:
        memcpy(&eight, at, sizeof eight);
        printf("%" PRIu64, eight);
        break;
    case FB_IP4_ADDR:
        memcpy(&four, at, sizeof four);
        printf("%" PRIu32 ".%" PRIu32 ".%" PRIu32 ".%" PRIu32, four >> 24, four >> 16 & 255, four >> 8 & 255, four & 255);
        break;
    case FB_IP6_ADDR:
        for (int i = 0; i < 16; i++) {
            printf("%02x", at[i]);
        }
        break;
    default:
        give_up("element of a type that no record of a flow has", NULL);
    }
}

static void print_record(fbTemplate_t *layout, uint16_t number, const uint8_t *record, size_t length)
{
    size_t at = 0;

    printf("%" PRIu16, number);
    for (uint32_t i = 0; i < fbTemplateCountElements(layout); i++) {
        const fbInfoElement_t *field = fbTemplateGetIndexedIE(layout, i);
        if (at + field->len > length) {
            give_up("record shorter than its template", NULL);
        }
        printf(" %" PRIu16 "=", field->num);
        print_value(field, record + at);
        at += field->len;
    }
    printf("\n");
    if (at != length) {
        give_up("record longer than its template", NULL);
    }
}

int main(void)
{
    GError *error = NULL;
    uint8_t record[65536];
    g_log_set_always_fatal(G_LOG_LEVEL_WARNING | G_LOG_LEVEL_CRITICAL | G_LOG_LEVEL_ERROR);
    fbInfoModel_t *model = fbInfoModelAlloc();
    fbSession_t *session = fbSessionAlloc(model);
    fBuf_t *buffer = fBufAllocForCollection(session, fbCollectorAllocFP(NULL, stdin));

    for (;;) {
        uint16_t number = 0;
        fbTemplate_t *external = fBufNextCollectionTemplate(buffer, &number, &error);
        if (external == NULL) {
            break;
        }
        fbTemplate_t *internal = fbSessionGetTemplate(session, TRUE, number, NULL);
        if (internal == NULL) {
            add_internal_template(session, model, external, number);
            internal = fbSessionGetTemplate(session, TRUE, number, &error);
        }
        if (internal == NULL || !fBufSetInternalTemplate(buffer, number, &error)) {
            give_up("template", error);
        }
        size_t length = sizeof record;
        if (!fBufNext(buffer, record, &length, &error)) {
            break;
        }
        print_record(internal, number, record, length);
    }
    if (!g_error_matches(error, FB_ERROR_DOMAIN, FB_ERROR_EOF)) {
        give_up("stream", error);
    }
    g_clear_error(&error);
    fBufFree(buffer);
    fbInfoModelFree(model);
    return fflush(stdout) == 0 ? 0 : 1;
}
