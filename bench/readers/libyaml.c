/* Reads the YAML file that its word names into a document, by libyaml, and keeps the document until the end. */
#include <stdio.h>
#include <yaml.h>

int main(int count, char **words) {
    FILE *file = count > 1 ? fopen(words[1], "rb") : NULL;
    yaml_parser_t parser;
    yaml_document_t document;
    if (!file || !yaml_parser_initialize(&parser)) return 1;
    yaml_parser_set_input_file(&parser, file);
    if (!yaml_parser_load(&parser, &document)) return 1;
    yaml_node_t *tree = yaml_document_get_root_node(&document);
    int is_mapping = tree && tree->type == YAML_MAPPING_NODE;
    yaml_document_delete(&document);
    yaml_parser_delete(&parser);
    fclose(file);
    return is_mapping ? 0 : 1;
}
