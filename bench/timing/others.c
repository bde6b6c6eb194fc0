/* Expat and libxml2 as the yardsticks see them: one call judges one file. */
#define _GNU_SOURCE
#include <expat.h>
#include <libxml/parser.h>
#include <libxml/xmlschemas.h>
#include <stddef.h>
#include <string.h>

/* That of statements, and that of reports. */
static xmlSchemaPtr schemas[2];

static void silent(void *context, const char *message, ...)
{
    (void)context;
    (void)message;
}

/* 1 if the schema of statements, or of reports, could be read. */
int others_schema(int of_reports, const char *text, size_t length)
{
    xmlInitParser();
    xmlSchemaParserCtxtPtr parser = xmlSchemaNewMemParserCtxt(text, (int)length);
    if (!parser)
        return 0;
    schemas[of_reports] = xmlSchemaParse(parser);
    xmlSchemaFreeParserCtxt(parser);
    return schemas[of_reports] != NULL;
}

/* The schema of a file by its namespace, which stands on the root, near the beginning. */
static xmlSchemaPtr schema_of(const char *file, size_t length)
{
    size_t front = length < 200 ? length : 200;
    return schemas[memmem(file, front, "camt.052.001.08", 15) != NULL];
}

/* 1 if expat takes the file as well formed. It judges no schema. */
int others_expat(const char *file, size_t length)
{
    XML_Parser parser = XML_ParserCreate(NULL);
    if (!parser)
        return 0;
    int good = XML_Parse(parser, file, (int)length, 1) == XML_STATUS_OK;
    XML_ParserFree(parser);
    return good;
}

/* 1 if libxml2 reads the file and finds it valid by the schema, over a tree. */
int others_tree(const char *file, size_t length)
{
    xmlDocPtr tree = xmlReadMemory(file, (int)length, "file", NULL, XML_PARSE_NONET | XML_PARSE_NOERROR | XML_PARSE_NOWARNING);
    if (!tree)
        return 0;
    xmlSchemaValidCtxtPtr judge = xmlSchemaNewValidCtxt(schema_of(file, length));
    xmlSchemaSetValidErrors(judge, silent, silent, NULL);
    int good = xmlSchemaValidateDoc(judge, tree) == 0;
    xmlSchemaFreeValidCtxt(judge);
    xmlFreeDoc(tree);
    return good;
}

/* The same without a tree. */
int others_stream(const char *file, size_t length)
{
    xmlParserInputBufferPtr input = xmlParserInputBufferCreateMem(file, (int)length, XML_CHAR_ENCODING_NONE);
    if (!input)
        return 0;
    xmlSchemaValidCtxtPtr judge = xmlSchemaNewValidCtxt(schema_of(file, length));
    xmlSchemaSetValidErrors(judge, silent, silent, NULL);
    xmlSAXHandler handler = {.initialized = XML_SAX2_MAGIC};
    int good = xmlSchemaValidateStream(judge, input, XML_CHAR_ENCODING_NONE, &handler, NULL) == 0;
    xmlSchemaFreeValidCtxt(judge);
    return good;
}
