"""What moto answers to the calls of `amazon_calls`, as JSON: python3 -m tests.moto_answers. It is asked within this process, without a server.

An execution is tried alone, since moto 5 fails at a second one (`cannot pickle '_thread.RLock'`).
"""
import contextlib
import io
import json
import os
import sys
import time

sys.path.insert(0, os.path.dirname(os.path.dirname(os.path.abspath(__file__))))

from tests.amazon_calls import CALLS, answer_of, executed  # noqa: E402
from tests.amazon_machines import TRIALS, WIDGET  # noqa: E402

os.environ.update(AWS_ACCESS_KEY_ID="a", AWS_SECRET_ACCESS_KEY="b", AWS_DEFAULT_REGION="us-east-1")
TABLE = {
    "TableName": "items",
    "AttributeDefinitions": [{"AttributeName": "id", "AttributeType": "S"}],
    "KeySchema": [{"AttributeName": "id", "KeyType": "HASH"}],
    "BillingMode": "PAY_PER_REQUEST",
}


def clients():
    """The two clients, of a table with one item."""
    import boto3

    states, tables = boto3.client("stepfunctions"), boto3.client("dynamodb")
    tables.create_table(**TABLE)
    tables.put_item(TableName="items", Item=WIDGET)
    return states, tables


def main():
    """Writes all answers."""
    from moto import mock_aws

    found = {"calls": [], "executions": []}
    with contextlib.redirect_stdout(io.StringIO()):
        with mock_aws():
            states, tables = clients()
            found["calls"] = [answer_of(states, tables, call) for call in CALLS]
        for trial in TRIALS:
            with mock_aws(config={"stepfunctions": {"execute_state_machine": True}}):
                states, _ = clients()
                found["executions"].append(executed(states, trial, lambda: time.sleep(0.05)))
    json.dump(found, sys.stdout, default=str)


if __name__ == "__main__":
    main()
