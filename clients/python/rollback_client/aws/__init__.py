"""The calls of Amazon's Step Functions and DynamoDB, answered by a book. `rollback_client.serve --aws` is its command.

| Module | Has |
|---|---|
| `actions` | which call is answered where |
| `serving`, `words` | the handler of requests, and the words of the command line |
| `wire`, `members`, `pages`, `signing` | requests and answers as bytes, the members of a request, tokens of pages, signatures |
| `names` | ARNs, and the names that both grammars take |
| `book`, `store` | what is asked of the book, and what is kept beside its journal |
| `machines`, `executions`, `history`, `events`, `filling`, `tags` | Step Functions |
| `tables`, `items`, `writes`, `expressions`, `values` | DynamoDB |
| `refused` | the calls that are refused, each with what to do instead |

Nothing of it is imported without that word.
"""
