"""The one request that is kept for each difference."""


def check_differences(port):
    return 0
