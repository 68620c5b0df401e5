"""A server that answers Amazon's tools, and boto3's clients of it."""
import contextlib
import functools
import importlib.util
import json
import os
import shutil
import subprocess
import time
import unittest
import urllib.error
import urllib.request

from tests.pages import WithPages, python_with
from tests.program import PATIENCE

MISSING = "no boto3 (on Debian the package python3-boto3, for /usr/bin/python3)"
REGION, ACCOUNT = "us-east-1", "000000000000"
ROLE = "arn:aws:iam::123456789012:role/orders"
STATES, TABLES = "AWSStepFunctions", "DynamoDB_20120810"
HASH_ID = {
    "AttributeDefinitions": [{"AttributeName": "id", "AttributeType": "S"}],
    "KeySchema": [{"AttributeName": "id", "KeyType": "HASH"}],
    "BillingMode": "PAY_PER_REQUEST",
}
AUTHORIZATION = (
    "AWS4-HMAC-SHA256 Credential=ann/20261129/us-east-1/states/aws4_request, SignedHeaders=host;x-amz-date, Signature="
    + "0" * 64
)


@functools.lru_cache(maxsize=None)
def provide(module):
    """On a machine where no Python has a module, root installs Debian's package for it, for the system's Python."""
    if python_with(module) is None and os.geteuid() == 0 and shutil.which("apt-get"):
        command = ["apt-get", "install", "-y", "--no-install-recommends", f"python3-{module}"]
        with contextlib.suppress(subprocess.SubprocessError):
            subprocess.run(command, stdout=subprocess.DEVNULL, stderr=subprocess.DEVNULL, timeout=PATIENCE, check=False)
        python_with.cache_clear()
        importlib.invalidate_caches()


def has_boto3():
    """Whether this Python has boto3."""
    provide("boto3")
    return importlib.util.find_spec("boto3") is not None


@functools.lru_cache(maxsize=None)
def session():
    """A session of boto3, which reads the models of the services once."""
    import boto3

    return boto3.session.Session(region_name=REGION)


def client_of(service, url, key="ann", secret="secret", region=REGION):
    """A client of boto3, which gives no call twice."""
    from botocore.config import Config

    settings = Config(
        retries={"max_attempts": 0, "mode": "standard"},
        connect_timeout=PATIENCE,
        read_timeout=PATIENCE,
        max_pool_connections=32,
    )
    return session().client(
        service,
        endpoint_url=url,
        region_name=region,
        aws_access_key_id=key,
        aws_secret_access_key=secret,
        config=settings,
    )


def request_of(url, target, body, headers=(), authorization=AUTHORIZATION):
    """A request as it is: its status, its headers, and its answer as JSON."""
    data = body if isinstance(body, bytes) else json.dumps(body).encode()
    found = {"Content-Type": "application/x-amz-json-1.0", "X-Amz-Target": target, "Authorization": authorization}
    found.update(headers)
    request = urllib.request.Request(
        f"{url}/", data, {name: value for name, value in found.items() if value is not None}
    )
    try:
        with urllib.request.urlopen(request, timeout=PATIENCE) as response:
            return response.status, response.headers, json.loads(response.read())
    except urllib.error.HTTPError as fault:
        with fault:
            return fault.code, fault.headers, json.loads(fault.read() or b"{}")


def error_of(call, **given):
    """The name of the error and the message of a call that is refused, with its status and its answer."""
    from botocore.exceptions import ClientError

    try:
        answer = call(**given)
    except ClientError as fault:
        found = fault.response
        status = found["ResponseMetadata"]["HTTPStatusCode"]
        return found["Error"]["Code"], found["Error"].get("Message", ""), status, found
    raise AssertionError(f"it is taken: {answer}")


class WithAmazon(WithPages):
    """A test with servers that answer Amazon's tools."""

    def setUp(self):
        if not has_boto3():
            self.skipTest(MISSING)
        provide("aiohttp")
        super().setUp()

    def amazon(self, *words, table=("items", "id:S"), **more):
        """A server, with its address."""
        words = (*words, "--table", *table) if table else words
        server = self.served("--aws", *words, asks="--run", **more)
        server.url = server.links["console"].split("/?")[0]
        return server

    def clients(self, server, **more):
        """Clients of Step Functions and of DynamoDB."""
        return client_of("stepfunctions", server.url, **more), client_of("dynamodb", server.url, **more)

    def created(self, states, name, definition, **more):
        """The ARN of a state machine."""
        text = definition if isinstance(definition, str) else json.dumps(definition)
        return states.create_state_machine(name=name, definition=text, roleArn=ROLE, **more)["stateMachineArn"]

    def ended(self, states, arn, seconds=PATIENCE):
        """An execution, once it runs no more."""
        ends = time.monotonic() + seconds
        while (found := states.describe_execution(executionArn=arn))["status"] == "RUNNING":
            self.assertLess(time.monotonic(), ends, "the execution doesn't end")
            time.sleep(0.01)
        return found

    def run_to_end(self, states, machine, input, **more):
        """An execution of a machine, at its end."""
        started = states.start_execution(stateMachineArn=machine, input=json.dumps(input), **more)
        return self.ended(states, started["executionArn"])

    def refused_by(self, error, call, says="", **given):
        """Looks that a call is refused by an error, with status 400."""
        name, message, status, found = error_of(call, **given)
        self.assertEqual((name, status), (error, 400), message)
        self.assertIn(says, message)
        return found


def plain_answer(answer):
    """An answer without what boto3 adds."""
    return {name: value for name, value in answer.items() if name != "ResponseMetadata"}


if __name__ == "__main__":
    unittest.main()
