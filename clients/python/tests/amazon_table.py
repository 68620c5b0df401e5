"""Tests of the table by boto3: a server with one, its clients, and the step that a write was."""
from rollback_client import Book
from tests.amazon import WithAmazon, session
from tests.program import PATIENCE

STEP = "x-rollback-step"


def step_of(answer):
    """The steps that a write was, as its response's header names them."""
    return answer["ResponseMetadata"]["HTTPHeaders"][STEP]


class OfTable(WithAmazon):
    def setUp(self):
        super().setUp()
        self.begin()

    def begin(self, *words, **more):
        self.server = self.amazon(*words, **more)
        self.states, self.tables = self.clients(self.server)

    def book(self):
        book = Book.connect(self.server.address, timeout=PATIENCE)
        self.addCleanup(book.close)
        return book

    def put(self, key, **attributes):
        return self.tables.put_item(TableName="items", Item={"id": {"S": key}, **attributes})

    def get(self, key):
        return self.tables.get_item(TableName="items", Key={"id": {"S": key}}).get("Item")

    def resource(self):
        return session().resource(
            "dynamodb", endpoint_url=self.server.url, aws_access_key_id="a", aws_secret_access_key="b"
        )
