def library(name, deps = []):
    native.filegroup(
        name = name,
        srcs = native.glob(["*.c"], exclude = ["*_test.c"]) + deps,
    )
    native.test_suite(
        name = name + "_tests",
        tests = [":" + name],
        tags = ["fast"],
    )
