from hikebox import Quota, exponential, recurs, retry


@retry(recurs(5) & exponential(0.1, 2).jittered(), on=OSError, limit=Quota(reserve=10, share=0.1, per=60))
def read(name):
    return open(name).readline()


print(read("README.md"))
