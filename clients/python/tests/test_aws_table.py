"""DynamoDB by boto3: the table, its reads, and the members of answers. The wanted answers are those of Amazon's documents."""
from decimal import Decimal

from tests.amazon import HASH_ID, client_of, error_of, plain_answer, request_of
from tests.amazon_table import OfTable
from tests.runners import chain


class Tables(OfTable):
    def begin(self):
        super().begin(table=None)

    def test_create_describe_list(self):
        self.refused_by("ResourceNotFoundException", self.tables.describe_table, "none yet", TableName="orders")
        key = [("customer", "S", "HASH"), ("number", "N", "RANGE")]
        schema = [{"AttributeName": name, "KeyType": kind} for name, _, kind in key]
        types = [{"AttributeName": name, "AttributeType": kind} for name, kind, _ in key]
        made = self.tables.create_table(
            TableName="orders",
            KeySchema=schema,
            AttributeDefinitions=types,
            ProvisionedThroughput={"ReadCapacityUnits": 5, "WriteCapacityUnits": 3},
            Tags=[{"Key": "team", "Value": "billing"}],
        )["TableDescription"]
        found = self.tables.describe_table(TableName="orders")["Table"]
        self.assertEqual(made, found)
        self.assertEqual((found["KeySchema"], found["AttributeDefinitions"]), (schema, types))
        self.assertEqual((found["TableName"], found["TableStatus"], found["ItemCount"]), ("orders", "ACTIVE", 0))
        self.assertEqual(found["TableArn"], "arn:aws:dynamodb:us-east-1:000000000000:table/orders")
        self.assertEqual(found["ProvisionedThroughput"]["ReadCapacityUnits"], 5)
        self.assertTrue(self.is_of_this_test(found["CreationDateTime"].timestamp()))
        self.assertEqual(self.tables.list_tables()["TableNames"], ["orders"])
        self.assertEqual(self.tables.list_tables(ExclusiveStartTableName="orders")["TableNames"], [])
        arn = found["TableArn"]
        self.assertEqual(
            self.tables.list_tags_of_resource(ResourceArn=arn)["Tags"], [{"Key": "team", "Value": "billing"}]
        )
        self.tables.tag_resource(ResourceArn=arn, Tags=[{"Key": "a", "Value": "b"}])
        self.tables.untag_resource(ResourceArn=arn, TagKeys=["team"])
        self.server.end()
        self.begin()
        self.assertEqual(self.tables.describe_table(TableName=arn)["Table"], found)
        self.assertEqual(self.tables.list_tags_of_resource(ResourceArn=arn)["Tags"], [{"Key": "a", "Value": "b"}])
        self.assertEqual(
            plain_answer(self.tables.describe_time_to_live(TableName="orders")),
            {"TimeToLiveDescription": {"TimeToLiveStatus": "DISABLED"}},
        )
        backups = self.tables.describe_continuous_backups(TableName="orders")["ContinuousBackupsDescription"]
        self.assertEqual(backups["PointInTimeRecoveryDescription"]["PointInTimeRecoveryStatus"], "DISABLED")
        self.tables.get_waiter("table_exists").wait(TableName="orders")

    def test_one_table(self):
        create = self.tables.create_table
        create(TableName="orders", **HASH_ID)
        self.refused_by("ResourceInUseException", create, "already exists", TableName="orders", **HASH_ID)
        self.refused_by("LimitExceededException", create, "one table", TableName="others", **HASH_ID)

    def test_tables_that_are_refused(self):
        create = self.tables.create_table
        types = {"AttributeDefinitions": [{"AttributeName": "id", "AttributeType": "B"}]}
        index = {
            "IndexName": "by-v",
            "KeySchema": [{"AttributeName": "id", "KeyType": "HASH"}],
            "Projection": {"ProjectionType": "ALL"},
        }
        spaced = {
            "AttributeDefinitions": [{"AttributeName": "an id", "AttributeType": "S"}],
            "KeySchema": [{"AttributeName": "an id", "KeyType": "HASH"}],
        }
        for more in (
            types,
            spaced,
            {"GlobalSecondaryIndexes": [index]},
            {"LocalSecondaryIndexes": [index]},
            {"StreamSpecification": {"StreamEnabled": True, "StreamViewType": "NEW_IMAGE"}},
            {"KeySchema": [{"AttributeName": "other", "KeyType": "HASH"}]},
            {"KeySchema": [{"AttributeName": "id", "KeyType": "RANGE"}]},
        ):
            self.refused_by("ValidationException", create, TableName="orders", **{**HASH_ID, **more})
        self.refused_by("ValidationException", create, TableName="or!ders", **HASH_ID)
        self.assertEqual(self.tables.list_tables()["TableNames"], [])
        create(TableName="orders", StreamSpecification={"StreamEnabled": False}, **HASH_ID)


class Reads(OfTable):
    ITEM = {
        "id": {"S": "k"},
        "m": {"M": {"a": {"L": [{"N": "1"}, {"N": "2"}, {"M": {"b": {"S": "x"}}}]}, "c": {"BOOL": True}}},
        "v": {"S": "x"},
    }

    def setUp(self):
        super().setUp()
        self.tables.put_item(TableName="items", Item=self.ITEM)

    def test_get(self):
        get = self.tables.get_item
        self.assertEqual(self.get("k"), self.ITEM)
        self.assertIsNone(self.get("none"))
        arn = "arn:aws:dynamodb:eu-west-1:123456789012:table/items"
        self.assertEqual(get(TableName=arn, Key={"id": {"S": "k"}}, ConsistentRead=True)["Item"], self.ITEM)
        self.refused_by("ResourceNotFoundException", get, TableName="other", Key={"id": {"S": "k"}})
        for key in (
            {},
            {"other": {"S": "k"}},
            {"id": {"N": "1"}},
            {"id": {"S": ""}},
            {"id": {"S": "k"}, "v": {"S": "x"}},
        ):
            self.refused_by("ValidationException", get, TableName="items", Key=key)
        # what is read is no step
        self.assertEqual(len(self.book().history()), 2)

    def test_projection(self):
        def projected(text, **names):
            more = {"ExpressionAttributeNames": {f"#{name}": value for name, value in names.items()}} if names else {}
            key = {"id": {"S": "k"}}
            return self.tables.get_item(TableName="items", Key=key, ProjectionExpression=text, **more).get("Item")

        for text, wanted in (
            ("v", {"v": {"S": "x"}}),
            ("v, id", {"v": {"S": "x"}, "id": {"S": "k"}}),
            ("m.c", {"m": {"M": {"c": {"BOOL": True}}}}),
            ("m.a[1]", {"m": {"M": {"a": {"L": [{"N": "2"}]}}}}),
            ("m.a[2].b, m.a[0]", {"m": {"M": {"a": {"L": [{"N": "1"}, {"M": {"b": {"S": "x"}}}]}}}}),
            ("none", {}),
            ("m.none, v[0], v.x", {}),
        ):
            self.assertEqual(projected(text), wanted, text)
        self.assertEqual(
            projected("#v, #m.#c", v="v", m="m", c="c"), {"v": {"S": "x"}, "m": {"M": {"c": {"BOOL": True}}}}
        )
        get, key = self.tables.get_item, {"id": {"S": "k"}}
        for text, names in (
            ("v,", {}),
            ("", {}),
            ("v v", {}),
            ("m, m.c", {}),
            ("#n", {}),
            ("v", {"#n": "v"}),
            (":v", {}),
            ("m[x]", {}),
            ("m[", {}),
        ):
            more = {"ExpressionAttributeNames": names} if names else {}
            self.refused_by("ValidationException", get, TableName="items", Key=key, ProjectionExpression=text, **more)
        self.refused_by("ValidationException", get, TableName="items", Key=key, ExpressionAttributeNames={"#n": "v"})
        self.refused_by(
            "ValidationException", get, "ProjectionExpression", TableName="items", Key=key, AttributesToGet=["v"]
        )

    def test_batch(self):
        self.put("b")
        batch = self.tables.batch_get_item
        keys = [{"id": {"S": key}} for key in ("k", "none", "b")]
        found = batch(RequestItems={"items": {"Keys": keys, "ProjectionExpression": "id"}})
        self.assertEqual(found["Responses"], {"items": [{"id": {"S": "k"}}, {"id": {"S": "b"}}]})
        self.assertEqual(found["UnprocessedKeys"], {})
        for asked in ({"items": {"Keys": [keys[0], keys[0]]}}, {"items": {"Keys": keys}, "other": {"Keys": keys}}):
            self.refused_by("ValidationException", batch, RequestItems=asked)
        self.refused_by("ResourceNotFoundException", batch, RequestItems={"other": {"Keys": keys}})
        many = [{"id": {"S": str(number)}} for number in range(101)]
        self.refused_by("ValidationException", batch, RequestItems={"items": {"Keys": many}})

    def test_scan(self):
        for number in range(20):
            self.put(f"n{number:02}", v={"N": str(number)})
        scan = self.tables.scan
        whole = scan(TableName="items")
        names = [item["id"]["S"] for item in whole["Items"]]
        self.assertEqual(names, ["k", *(f"n{number:02}" for number in range(20))])
        self.assertEqual((whole["Count"], whole["ScannedCount"]), (21, 21))
        self.assertNotIn("LastEvaluatedKey", whole)
        pages = list(self.tables.get_paginator("scan").paginate(TableName="items", PaginationConfig={"PageSize": 8}))
        self.assertEqual([page["Count"] for page in pages], [8, 8, 5])
        self.assertEqual([item["id"]["S"] for page in pages for item in page["Items"]], names)
        segments = [scan(TableName="items", Segment=number, TotalSegments=4)["Items"] for number in range(4)]
        self.assertEqual(sorted(item["id"]["S"] for items in segments for item in items), names)
        self.assertGreater(len([items for items in segments if items]), 1)
        self.assertEqual(plain_answer(scan(TableName="items", Select="COUNT")), {"Count": 21, "ScannedCount": 21})
        self.assertEqual(
            scan(TableName="items", ProjectionExpression="v", Limit=2)["Items"], [{"v": {"S": "x"}}, {"v": {"N": "0"}}]
        )
        for more in (
            {"FilterExpression": "attribute_exists(v)"},
            {"IndexName": "by-v"},
            {"Segment": 1},
            {"Segment": 4, "TotalSegments": 4},
            {"ExclusiveStartKey": {"x": {"S": "k"}}},
            {"Select": "SPECIFIC_ATTRIBUTES"},
        ):
            self.refused_by("ValidationException", scan, TableName="items", **more)

    def test_long_pages(self):
        for number in range(5):
            self.put(f"long{number}", v={"S": "x" * 300_000})
        pages = list(self.tables.get_paginator("scan").paginate(TableName="items"))
        self.assertEqual([page["Count"] for page in pages], [5, 1])

    def test_query_by_the_partition_key(self):
        from boto3.dynamodb.conditions import Attr, Key

        table = self.resource().Table("items")
        found = table.query(KeyConditionExpression=Key("id").eq("k"))
        self.assertEqual((found["Count"], found["Items"][0]["v"]), (1, "x"))
        self.assertEqual(table.query(KeyConditionExpression=Key("id").eq("none"))["Items"], [])
        for more in (
            {"KeyConditionExpression": Key("id").gt("k")},
            {"KeyConditionExpression": Key("v").eq("x")},
            {"KeyConditionExpression": Key("id").eq(1)},
            {"KeyConditionExpression": Key("id").eq("k"), "FilterExpression": Attr("v").eq("x")},
            {"KeyConditionExpression": "id = :v"},
            {},
        ):
            self.refused_by("ValidationException", table.query, **more)


class SortKeys(OfTable):
    def begin(self):
        super().begin(table=("items", "id:S", "at:N"))
        for name in ("a", "b"):
            for at in (10, 9, -1, "1.5", 100):
                self.tables.put_item(TableName="items", Item={"id": {"S": name}, "at": {"N": str(at)}})

    def query(self, text, is_forward=True, **values):
        pages = self.tables.get_paginator("query").paginate(
            TableName="items",
            KeyConditionExpression=text,
            ExpressionAttributeValues={f":{name}": value for name, value in values.items()},
            ScanIndexForward=is_forward,
            PaginationConfig={"PageSize": 2},
        )
        return [item["at"]["N"] for page in pages for item in page["Items"]]

    def test_queries(self):
        a, nine, ten = {"S": "a"}, {"N": "9"}, {"N": "10"}
        self.assertEqual(self.query("id = :a", a=a), ["-1", "1.5", "9", "10", "100"])
        self.assertEqual(self.query("id = :a", False, a=a), ["100", "10", "9", "1.5", "-1"])
        for operator, wanted in (
            ("=", ["9"]),
            ("<", ["-1", "1.5"]),
            ("<=", ["-1", "1.5", "9"]),
            (">", ["10", "100"]),
            (">=", ["9", "10", "100"]),
        ):
            self.assertEqual(self.query(f"id = :a AND at {operator} :n", a=a, n=nine), wanted)
            self.assertEqual(self.query(f"(at {operator} :n) and (id=:a)", a=a, n=nine), wanted)
        self.assertEqual(self.query("id = :a AND at BETWEEN :n AND :m", a=a, n=nine, m=ten), ["9", "10"])
        for text in (
            "at = :n",
            "id = :a AND at <> :n",
            "id = :a AND begins_with(at, :n)",
            "id = :a AND id = :n",
            "id = :a OR at = :n",
        ):
            name, _, status, _ = error_of(
                self.tables.query,
                TableName="items",
                KeyConditionExpression=text,
                ExpressionAttributeValues={":a": a, ":n": nine} if ":a" in text else {":n": nine},
            )
            self.assertEqual((name, status), ("ValidationException", 400), text)

    def test_conditions_of_boto3(self):
        from boto3.dynamodb.conditions import Key

        found = (
            self.resource().Table("items").query(KeyConditionExpression=Key("id").eq("a") & Key("at").between(9, 10))
        )
        self.assertEqual([item["at"] for item in found["Items"]], [Decimal(9), Decimal(10)])


class Shapes(OfTable):
    def test_answers_have_the_members_of_the_models(self):
        """Each member of an answer is one of the model, and of its kind: boto3 would drop it, or fail, without a word."""
        self.put("k")
        arn = self.created(self.states, "p", chain({"Type": "Pass"}))
        made = self.run_to_end(self.states, arn, {})["executionArn"]
        models = {name: client_of(name, self.server.url).meta.service_model for name in ("stepfunctions", "dynamodb")}
        if "ValidateStateMachineDefinition" not in models["stepfunctions"].operation_names:
            self.skipTest("this boto3 is older than some calls of Step Functions")
        key = {"TableName": "items", "Key": {"id": {"S": "k"}}}
        for service, prefix, action, body in (
            ("stepfunctions", "AWSStepFunctions", "DescribeStateMachine", {"stateMachineArn": arn}),
            ("stepfunctions", "AWSStepFunctions", "DescribeStateMachineForExecution", {"executionArn": made}),
            ("stepfunctions", "AWSStepFunctions", "ListStateMachines", {"maxResults": 1}),
            ("stepfunctions", "AWSStepFunctions", "DescribeExecution", {"executionArn": made}),
            ("stepfunctions", "AWSStepFunctions", "ListExecutions", {"stateMachineArn": arn}),
            ("stepfunctions", "AWSStepFunctions", "GetExecutionHistory", {"executionArn": made}),
            ("stepfunctions", "AWSStepFunctions", "ListTagsForResource", {"resourceArn": arn}),
            ("stepfunctions", "AWSStepFunctions", "ListStateMachineVersions", {"stateMachineArn": arn}),
            ("stepfunctions", "AWSStepFunctions", "ListStateMachineAliases", {"stateMachineArn": arn}),
            ("stepfunctions", "AWSStepFunctions", "ValidateStateMachineDefinition", {"definition": "{}"}),
            ("dynamodb", "DynamoDB_20120810", "DescribeTable", {"TableName": "items"}),
            ("dynamodb", "DynamoDB_20120810", "DescribeTimeToLive", {"TableName": "items"}),
            ("dynamodb", "DynamoDB_20120810", "DescribeContinuousBackups", {"TableName": "items"}),
            ("dynamodb", "DynamoDB_20120810", "GetItem", key),
            ("dynamodb", "DynamoDB_20120810", "Scan", {"TableName": "items", "Limit": 1}),
        ):
            status, _, answer = request_of(self.server.url, f"{prefix}.{action}", body)
            self.assertEqual(status, 200, answer)
            self.look_at(answer, models[service].operation_model(action).output_shape, action)

    def look_at(self, value, shape, where):
        kinds = {
            "structure": dict,
            "map": dict,
            "list": list,
            "string": str,
            "integer": int,
            "long": int,
            "boolean": bool,
            "timestamp": (int, float),
        }
        self.assertIsInstance(value, kinds[shape.type_name], where)
        if shape.type_name == "structure":
            self.assertEqual(set(value) - set(shape.members), set(), where)
            self.assertEqual(set(shape.required_members) - set(value), set(), where)
            for name, below in value.items():
                self.look_at(below, shape.members[name], f"{where}.{name}")
        elif shape.type_name == "map":
            for name, below in value.items():
                self.look_at(below, shape.value, f"{where}.{name}")
        elif shape.type_name == "list":
            for below in value:
                self.look_at(below, shape.member, where)
        elif shape.enum if shape.type_name == "string" else None:
            self.assertIn(value, shape.enum, where)
