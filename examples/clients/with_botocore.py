"""Retries of AWS' clients, of botocore or of boto3, under the bucket of the AWS SDKs and in the place of their own."""

import botocore.session
from botocore.config import Config
from botocore.exceptions import ClientError, HTTPClientError

from hikebox import Bucket, exponential, recurs, retry

client = botocore.session.get_session().create_client(
    "dynamodb", region_name="eu-west-1", config=Config(retries={"total_max_attempts": 1})
)
THROTTLED = {"ProvisionedThroughputExceededException", "RequestLimitExceeded", "ThrottlingException"}


def may_pass(error):
    """Whether the service said that it can't now, or was not reached."""
    if isinstance(error, ClientError):
        status = error.response["ResponseMetadata"]["HTTPStatusCode"]
        return error.response["Error"]["Code"] in THROTTLED or status >= 500
    return isinstance(error, HTTPClientError)


@retry(recurs(2) & exponential(0.05, 2).cap(20).jittered(0, 1), on=may_pass, limit=Bucket.aws())
def get(key):
    return client.get_item(TableName="names", Key={"name": {"S": key}}).get("Item")
