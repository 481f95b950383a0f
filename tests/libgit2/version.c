/* Prints the version of libgit2. */
#include <git2.h>
#include <stdio.h>

int main(void)
{
    int major = 0, minor = 0, revision = 0;
    git_libgit2_version(&major, &minor, &revision);
    printf("%d.%d.%d\n", major, minor, revision);
    return 0;
}
