"""Sixteen clients of boto3 at once, who put, read, delete and start: each gets its own answers, and the book is theirs together."""
import json
import os
import threading
import time

from rollback_client import Book
from tests.amazon import WithAmazon, error_of
from tests.program import PATIENCE
from tests.runners import chain

CLIENTS = 16
SECONDS = float(os.environ.get("ROLLBACK_AWS_SECONDS", "10"))
COPY = chain(
    {
        "Type": "Task",
        "Resource": "arn:aws:states:::dynamodb:getItem",
        "Parameters": {"TableName": "items", "Key": {"id": {"S.$": "$.from"}}},
    },
    {
        "Type": "Task",
        "Resource": "arn:aws:states:::dynamodb:putItem",
        "Parameters": {"TableName": "items", "Item": {"id": {"S.$": "$.Item.copy.S"}, "of.$": "$.Item.v"}},
    },
)


class Many(WithAmazon):
    def test_sixteen_clients(self):
        server = self.amazon()
        states, tables = self.clients(server)
        arn = self.created(states, "copy", COPY)
        tables.put_item(TableName="items", Item={"id": {"S": "shared"}})
        counts, wrong = [0] * CLIENTS, []
        made = [self.clients(server) for _ in range(CLIENTS)]  # a session of boto3 is for one thread
        ends = time.monotonic() + SECONDS
        callers = [
            threading.Thread(target=self.call, args=(*each, arn, number, ends, counts, wrong))
            for number, each in enumerate(made)
        ]
        for caller in callers:
            caller.start()
        for caller in callers:
            caller.join()
        self.assertEqual(wrong, [])
        self.assertGreater(min(counts), 0)
        # what a client wrote and didn't delete is there, and no more
        items = [item for page in tables.get_paginator("scan").paginate(TableName="items") for item in page["Items"]]
        keys = {item["id"]["S"] for item in items}
        wanted = {"shared"} | {f"{kind}{number}" for number in range(CLIENTS) for kind in ("own", "copy")}
        self.assertEqual(keys, wanted)
        listed = states.get_paginator("list_executions").paginate(stateMachineArn=arn)
        rows = [row for page in listed for row in page["executions"]]
        self.assertEqual(len(rows), sum(counts))
        self.assertEqual({row["status"] for row in rows}, {"SUCCEEDED"})
        with Book.connect(server.address, timeout=PATIENCE) as book:
            for number in range(CLIENTS):
                self.assertEqual(book.item({"id": {"S": f"copy{number}"}})["now"]["of"], {"N": str(counts[number])})
        status, said = server.end()
        self.assertEqual((status, "has failed" in said), (0, False), said)

    def call(self, states, tables, arn, number, ends, counts, wrong):
        """One client: each of its rounds writes, reads what it wrote, has an execution copy it, and deletes something."""
        try:
            own, copy = {"id": {"S": f"own{number}"}}, {"id": {"S": f"copy{number}"}}
            while not counts[number] or time.monotonic() < ends:
                value = {"N": str(counts[number] + 1)}
                tables.put_item(TableName="items", Item={**own, "v": value, "copy": copy["id"]})
                found = tables.get_item(TableName="items", Key=own)["Item"]
                assert found["v"] == value, found
                gone = {"id": {"S": f"gone{number}"}}
                tables.put_item(TableName="items", Item=gone, ConditionExpression="attribute_not_exists(id)")
                name, *_ = error_of(
                    tables.put_item,
                    TableName="items",
                    Item={"id": {"S": "shared"}},
                    ConditionExpression="attribute_not_exists(id)",
                )
                assert name == "ConditionalCheckFailedException", name
                tables.delete_item(TableName="items", Key=gone)
                input = json.dumps({"from": f"own{number}"})
                started = states.start_execution(stateMachineArn=arn, name=f"c{number}-{counts[number]}", input=input)
                ended = self.ended(states, started["executionArn"])
                assert ended["status"] == "SUCCEEDED", ended
                found = tables.get_item(TableName="items", Key=copy)["Item"]
                assert found["of"] == value, found
                counts[number] += 1
        except Exception as fault:
            wrong.append(repr(fault))
