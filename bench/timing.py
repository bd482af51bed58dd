"""What the scripts that time the product share."""
import resource
import subprocess
import sys


def user_time(program, job, want, words=("run", "--workers", "1")):
    """The user time of `PROGRAM WORDS` on a job, in seconds. What is written is compared with what it must be."""
    before = resource.getrusage(resource.RUSAGE_CHILDREN).ru_utime
    got = subprocess.run([program, *words], input=job.encode(), capture_output=True).stdout.decode()
    if got != want:
        sys.exit("another report than expected:\n" + got)
    return resource.getrusage(resource.RUSAGE_CHILDREN).ru_utime - before
