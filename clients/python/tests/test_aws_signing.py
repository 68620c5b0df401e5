"""Signatures: Amazon's published example, boto3's own signer, and what is wrong or stale."""
import datetime
import os
import time
import unittest
from unittest import mock

from rollback_client.aws.signing import Credentials, Signed, Signature, canonical_request, digest_of, signature_of
from rollback_client.aws.wire import Fault
from tests.amazon import TABLES, WithAmazon, client_of, error_of, request_of


class Published(unittest.TestCase):
    """The example of *Signature Version 4 signing process* in the AWS General Reference: ListUsers of IAM."""

    SECRET = "wJalrXUtnFEMI/K7MDENG+bPxRfiCYEXAMPLEKEY"
    STAMP = "20150830T123600Z"
    SIGNATURE = Signature(
        "AKIDEXAMPLE",
        ("20150830", "us-east-1", "iam", "aws4_request"),
        ("content-type", "host", "x-amz-date"),
        "5d672d79c15b13162d9279b0855cfba6789a8edb4c82c400e06b5924a6f2b5d7",
    )
    SIGNED = Signed(
        "GET",
        "/",
        (("Version", "2010-05-08"), ("Action", "ListUsers")),
        {
            "content-type": "application/x-www-form-urlencoded; charset=utf-8",
            "host": "iam.amazonaws.com",
            "x-amz-date": STAMP,
        },
        b"",
    )

    def test_canonical_request(self):
        wanted = (
            "GET\n/\nAction=ListUsers&Version=2010-05-08\n"
            "content-type:application/x-www-form-urlencoded; charset=utf-8\nhost:iam.amazonaws.com\n"
            "x-amz-date:20150830T123600Z\n\ncontent-type;host;x-amz-date\n"
            "e3b0c44298fc1c149afbf4c8996fb92427ae41e4649b934ca495991b7852b855"
        )
        self.assertEqual(canonical_request(self.SIGNATURE, self.SIGNED), wanted)

    def test_signature(self):
        self.assertEqual(digest_of(self.SECRET, self.SIGNATURE, self.SIGNED, self.STAMP), self.SIGNATURE.digest)

    def test_header(self):
        header = (
            "AWS4-HMAC-SHA256 Credential=AKIDEXAMPLE/20150830/us-east-1/iam/aws4_request, "
            f"SignedHeaders=content-type;host;x-amz-date, Signature={self.SIGNATURE.digest}"
        )
        self.assertEqual(signature_of(header), self.SIGNATURE)
        for wrong, error in (
            (None, "MissingAuthenticationTokenException"),
            ("", "MissingAuthenticationTokenException"),
            ("AWS4-HMAC-SHA256", "IncompleteSignatureException"),
            (header.replace("/aws4_request", ""), "IncompleteSignatureException"),
            (header[:-1], "IncompleteSignatureException"),
        ):
            with self.assertRaises(Fault) as caught:
                signature_of(wrong)
            self.assertEqual(caught.exception.name, error)

    def test_times(self):
        moment = datetime.datetime(2015, 8, 30, 12, 36, tzinfo=datetime.timezone.utc).timestamp()
        credentials = Credentials({"AKIDEXAMPLE": self.SECRET})
        for seconds in (0, 299, -299):
            credentials.check(self.SIGNATURE, self.SIGNED, moment + seconds)
        for seconds in (301, -301):
            with self.assertRaises(Fault) as caught:
                credentials.check(self.SIGNATURE, self.SIGNED, moment + seconds)
            self.assertEqual(caught.exception.name, "InvalidSignatureException")


def clock_of_boto3(seconds):
    """Has boto3 sign as of this moment. Newer versions of it ask another function for the time."""
    import botocore.auth

    moment = datetime.datetime.fromtimestamp(seconds, datetime.timezone.utc).replace(tzinfo=None)
    if hasattr(botocore.auth, "get_current_datetime"):
        return mock.patch("botocore.auth.get_current_datetime", lambda *given, **more: moment)

    class Late(datetime.datetime):
        """The datetime that the signer looks at."""

        @classmethod
        def utcnow(cls):
            return moment

    return mock.patch("botocore.auth.datetime", mock.Mock(datetime=Late))


class Checked(WithAmazon):
    def credentials(self, text, mode=0o600):
        path = self.path("credentials")
        with open(path, "w", encoding="utf-8") as stream:
            stream.write(text)
        os.chmod(path, mode)
        return path

    def setUp(self):
        super().setUp()
        self.server = self.amazon("--credentials", self.credentials("# keys\nann secret\nbob s/+=x\n"))

    def listed(self, **more):
        return client_of("dynamodb", self.server.url, **more).list_tables

    def test_right(self):
        self.assertEqual(self.listed()()["TableNames"], ["items"])
        self.assertEqual(self.listed(key="bob", secret="s/+=x", region="eu-west-1")()["TableNames"], ["items"])
        states = client_of("stepfunctions", self.server.url)
        self.assertEqual(states.list_state_machines()["stateMachines"], [])

    def test_wrong(self):
        for more, error in (
            ({"secret": "other"}, "InvalidSignatureException"),
            ({"key": "bob"}, "InvalidSignatureException"),
            ({"key": "eve"}, "UnrecognizedClientException"),
        ):
            name, _, status, _ = error_of(self.listed(**more))
            self.assertEqual((name, status), (error, 400), more)
        status, _, answer = request_of(self.server.url, f"{TABLES}.ListTables", {}, authorization=None)
        self.assertEqual((status, answer["__type"].rpartition("#")[2]), (400, "MissingAuthenticationTokenException"))

    def test_another_body_or_target(self):
        from botocore.auth import SigV4Auth
        from botocore.awsrequest import AWSRequest
        from botocore.credentials import Credentials as Keys

        def asked(signed_target, sent_target, body, sent):
            headers = {"Host": self.server.url[7:], "X-Amz-Target": signed_target}
            request = AWSRequest("POST", f"{self.server.url}/", headers=headers, data=body)
            SigV4Auth(Keys("ann", "secret"), "dynamodb", "us-east-1").add_auth(request)
            found = {**dict(request.headers.items()), "X-Amz-Target": sent_target}
            return request_of(self.server.url, sent_target, sent, found, found["Authorization"])

        lists, scans = f"{TABLES}.ListTables", f"{TABLES}.Scan"
        self.assertEqual(asked(lists, lists, b"{}", b"{}")[0], 200)
        for given in ((lists, lists, b"{}", b'{"Limit":1}'), (lists, scans, b"{}", b"{}")):
            status, _, answer = asked(*given)
            self.assertEqual((status, answer["__type"].rpartition("#")[2]), (400, "InvalidSignatureException"))

    def test_stale(self):
        listed = self.listed()
        listed()
        for minutes, error in ((4, None), (-4, None), (6, "expired"), (-6, "not yet current")):
            with clock_of_boto3(time.time() - minutes * 60):
                if error is None:
                    self.assertEqual(listed()["TableNames"], ["items"])
                    continue
                name, message, status, _ = error_of(listed)
            self.assertEqual((name, status), ("InvalidSignatureException", 400))
            self.assertIn(error, message)

    def test_nothing_is_said_of_unchecked_signatures(self):
        _, said = self.server.end()
        self.assertNotIn("checks no signature", said)

    def test_files_that_are_refused(self):
        from tests.test_aws_wire import Words

        self.server.end()
        for text, mode, why in (
            ("ann secret\n", 0o644, "give it 0600"),
            ("", 0o600, "no line KEY SECRET"),
            ("ann\n", 0o600, "isn't KEY SECRET"),
            ("ann a b\n", 0o600, "isn't KEY SECRET"),
        ):
            words = ("--run", "--http", "127.0.0.1:0", "--aws", "--credentials", self.credentials(text, mode))
            status, said = Words.refused_amazon(self, *words)
            self.assertEqual(status, 2)
            self.assertIn(why, said)
            self.assertNotIn("secret", said)


if __name__ == "__main__":
    unittest.main()
