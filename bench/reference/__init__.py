"""A model of voodoo in Python, to compare the built program with: what a schema, a table, a query and a program of the algebra mean.

It is written from docs/FORMATS.md and from SQL-92 (ISO/IEC 9075:1992) alone, not from the code or the definitions of the crates, so that a mistake
in them is no mistake here. It is slow, and made to be read beside the page. bench/random compares the two over random texts.

| module | what it is the model of |
|---|---|
| tokens | the tokens of schemas and queries |
| schemas | the schema's text and its catalog |
| tables | the records of a table's file and their values |
| query_text | the grammar of queries |
| query_types | what the names of a query mean, and its kinds |
| values | numbers, truths, comparisons, aggregates |
| answers | the rows of a query, and how rows are written |
| program_text | the text of a program of the algebra, and its check |
| program_runs | what the operators make |
| runs | a whole run: words, files, statuses |

The other modules make random tables, queries and programs: random_tables, random_queries, random_programs.
"""
