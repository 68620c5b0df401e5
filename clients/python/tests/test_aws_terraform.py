"""What Terraform's provider of Amazon's services asks, request by request, and what the `aws` command does."""
import json
import os
import re
import shutil
import subprocess
import tempfile

from tests.amazon import ROLE, STATES, TABLES, WithAmazon, request_of
from tests.program import PASS, PATIENCE

MACHINE = "arn:aws:states:us-east-1:000000000000:stateMachine:order"
TABLE = "arn:aws:dynamodb:us-east-1:000000000000:table/orders"
TAGS = [{"Key": "team", "Value": "billing"}]
DEFINITION = json.dumps(PASS, indent=2) + "\n"
ANY = re.compile("")

# Requests of the provider's resources aws_dynamodb_table, aws_dynamodb_table_item and aws_sfn_state_machine: apply, then plan
# again, which has to see no difference. Each has the members of the answer that the provider reads, as they have to be.
APPLY = (
    (
        f"{TABLES}.CreateTable",
        {
            "AttributeDefinitions": [{"AttributeName": "id", "AttributeType": "S"}],
            "BillingMode": "PAY_PER_REQUEST",
            "DeletionProtectionEnabled": False,
            "KeySchema": [{"AttributeName": "id", "KeyType": "HASH"}],
            "TableClass": "STANDARD",
            "TableName": "orders",
            "Tags": TAGS,
        },
        {"TableDescription": {"TableArn": TABLE, "TableName": "orders"}},
    ),
    (f"{TABLES}.DescribeTable", {"TableName": "orders"}, {"Table": {"TableStatus": "ACTIVE"}}),
    (
        f"{TABLES}.PutItem",
        {
            "ConditionExpression": "attribute_not_exists(#hk)",
            "ExpressionAttributeNames": {"#hk": "id"},
            "Item": {"id": {"S": "widget"}, "count": {"N": "1"}},
            "TableName": "orders",
        },
        {},
    ),
    (f"{STATES}.ValidateStateMachineDefinition", {"definition": DEFINITION, "type": "STANDARD"}, {"result": "OK"}),
    (
        f"{STATES}.CreateStateMachine",
        {
            "definition": DEFINITION,
            "encryptionConfiguration": {"type": "AWS_OWNED_KEY"},
            "loggingConfiguration": {"includeExecutionData": False, "level": "OFF"},
            "name": "order",
            "publish": False,
            "roleArn": ROLE,
            "tags": [{"key": "team", "value": "billing"}],
            "tracingConfiguration": {"enabled": False},
            "type": "STANDARD",
        },
        {"stateMachineArn": MACHINE, "creationDate": ANY},
    ),
)
PLAN = (
    (
        f"{TABLES}.DescribeTable",
        {"TableName": "orders"},
        {
            "Table": {
                "AttributeDefinitions": [{"AttributeName": "id", "AttributeType": "S"}],
                "BillingModeSummary": {"BillingMode": "PAY_PER_REQUEST"},
                "DeletionProtectionEnabled": False,
                "KeySchema": [{"AttributeName": "id", "KeyType": "HASH"}],
                "TableArn": TABLE,
                "TableClassSummary": {"TableClass": "STANDARD"},
                "TableName": "orders",
                "TableStatus": "ACTIVE",
            }
        },
    ),
    (
        f"{TABLES}.DescribeContinuousBackups",
        {"TableName": "orders"},
        {"ContinuousBackupsDescription": {"PointInTimeRecoveryDescription": {"PointInTimeRecoveryStatus": "DISABLED"}}},
    ),
    (
        f"{TABLES}.DescribeTimeToLive",
        {"TableName": "orders"},
        {"TimeToLiveDescription": {"TimeToLiveStatus": "DISABLED"}},
    ),
    (f"{TABLES}.ListTagsOfResource", {"ResourceArn": TABLE}, {"Tags": TAGS}),
    (
        f"{TABLES}.GetItem",
        {
            "ConsistentRead": True,
            "ExpressionAttributeNames": {"#a_count": "count", "#a_id": "id"},
            "Key": {"id": {"S": "widget"}},
            "ProjectionExpression": "#a_count, #a_id",
            "TableName": "orders",
        },
        {"Item": {"id": {"S": "widget"}, "count": {"N": "1"}}},
    ),
    (
        f"{STATES}.DescribeStateMachine",
        {"stateMachineArn": MACHINE},
        {
            "definition": DEFINITION,
            "encryptionConfiguration": {"type": "AWS_OWNED_KEY"},
            "loggingConfiguration": {"includeExecutionData": False, "level": "OFF"},
            "name": "order",
            "roleArn": ROLE,
            "status": "ACTIVE",
            "stateMachineArn": MACHINE,
            "tracingConfiguration": {"enabled": False},
            "type": "STANDARD",
        },
    ),
    (
        f"{STATES}.ListStateMachineVersions",
        {"maxResults": 1, "stateMachineArn": MACHINE},
        {"stateMachineVersions": []},
    ),
    (f"{STATES}.ListStateMachineAliases", {"stateMachineArn": MACHINE}, {"stateMachineAliases": []}),
    (f"{STATES}.ListTagsForResource", {"resourceArn": MACHINE}, {"tags": [{"key": "team", "value": "billing"}]}),
)
# what `terraform destroy` and changes ask: the items go, and the rest says why it doesn't
DESTROY = (
    (f"{STATES}.UpdateStateMachine", {"definition": "{}", "stateMachineArn": MACHINE}, "never changed"),
    (f"{STATES}.DeleteStateMachine", {"stateMachineArn": MACHINE}, "can't be deleted"),
    (f"{TABLES}.DeleteTable", {"TableName": "orders"}, "can't be deleted"),
    (f"{TABLES}.UpdateTimeToLive", {"TableName": "orders", "TimeToLiveSpecification": {}}, "don't expire"),
)


class Terraform(WithAmazon):
    def setUp(self):
        super().setUp()
        self.server = self.amazon(table=None)

    def has(self, answer, wanted, where):
        if isinstance(wanted, dict):
            self.assertEqual(set(wanted) - set(answer), set(), where)
            for name, value in wanted.items():
                self.has(answer[name], value, f"{where} {name}")
        elif wanted is not ANY:
            self.assertEqual(answer, wanted, where)

    def give(self, requests):
        for target, body, wanted in requests:
            status, _, answer = request_of(self.server.url, target, body)
            self.assertEqual(status, 200, (target, answer))
            self.has(answer, wanted, target)

    def test_apply_and_plan(self):
        self.give(APPLY)
        self.give(PLAN)
        self.server.end()
        self.server = self.amazon(table=None)
        self.give(PLAN)

    def test_changes_of_tags(self):
        self.give(APPLY)
        tags = [{"key": "team", "value": "orders"}]
        self.give(
            (
                (f"{STATES}.TagResource", {"resourceArn": MACHINE, "tags": tags}, {}),
                (f"{STATES}.ListTagsForResource", {"resourceArn": MACHINE}, {"tags": tags}),
                (f"{TABLES}.UntagResource", {"ResourceArn": TABLE, "TagKeys": ["team"]}, {}),
                (f"{TABLES}.ListTagsOfResource", {"ResourceArn": TABLE}, {"Tags": []}),
            )
        )

    def test_destroy(self):
        self.give(APPLY)
        self.give(((f"{TABLES}.DeleteItem", {"Key": {"id": {"S": "widget"}}, "TableName": "orders"}, {}),))
        for target, body, why in DESTROY:
            # a status from 500 on, and some errors, would be tried again for minutes
            status, _, answer = request_of(self.server.url, target, body)
            self.assertEqual((status, answer["__type"].rpartition("#")[2]), (400, "ValidationException"), target)
            self.assertIn(why, answer["message"])
        self.give(((f"{TABLES}.Scan", {"TableName": "orders"}, {"Count": 0}),))
        self.give(((f"{STATES}.DescribeStateMachine", {"stateMachineArn": MACHINE}, {"name": "order"}),))


class Command(WithAmazon):
    """The `aws` command."""

    def setUp(self):
        super().setUp()
        if shutil.which("aws") is None:
            self.skipTest("there is no aws command (Debian's package awscli)")
        self.server = self.amazon()

    def aws(self, *words, status=0):
        with tempfile.TemporaryDirectory() as home:
            done = subprocess.run(
                ["aws", "--endpoint-url", self.server.url, "--region", "us-east-1", "--output", "json", *words],
                env={
                    **os.environ,
                    "HOME": home,
                    "AWS_ACCESS_KEY_ID": "ann",
                    "AWS_SECRET_ACCESS_KEY": "x",
                    "AWS_MAX_ATTEMPTS": "1",
                },
                stdout=subprocess.PIPE,
                stderr=subprocess.PIPE,
                text=True,
                timeout=PATIENCE,
                check=False,
            )
        self.assertEqual(done.returncode == 0, status == 0, done.stderr)
        return json.loads(done.stdout or "null") if status == 0 else done.stderr

    def test_a_session(self):
        self.aws("dynamodb", "put-item", "--table-name", "items", "--item", '{"id":{"S":"widget"}}')
        found = self.aws("dynamodb", "scan", "--table-name", "items")
        self.assertEqual(found["Items"], [{"id": {"S": "widget"}}])
        made = self.aws(
            *("stepfunctions", "create-state-machine", "--name", "p", "--role-arn", ROLE),
            *("--definition", json.dumps(PASS)),
        )
        started = self.aws(
            *("stepfunctions", "start-execution", "--state-machine-arn", made["stateMachineArn"]),
            *("--name", "e", "--input", "{}"),
        )
        arn = started["executionArn"]
        for _ in range(20):
            shown = self.aws("stepfunctions", "describe-execution", "--execution-arn", arn)
            if shown["status"] != "RUNNING":
                break
        self.assertEqual((shown["status"], shown["output"]), ("SUCCEEDED", "7"))
        said = self.aws("stepfunctions", "stop-execution", "--execution-arn", arn, status=None)
        self.assertIn("ValidationException", said)
