"""A driver that is opened, and one caller that asks for a connection, gets it and returns it."""

import mdb

with mdb.Driver("open seeds=a:27017 max=10") as driver:
    driver.hello(1, "a:27017", 0, "ok rtt=5 maxWireVersion=21")
    assert driver.request(2, 1, "a:27017").kind is mdb.Kind.ESTABLISHING
    job = driver.claim(2)                                     # a worker connects to job.connection
    driver.established(3, job.connection, wire=21)
    assert driver.collect(3, 1).kind is mdb.Kind.POOLED       # party 1 uses it
    driver.return_(4, 1)
    print(driver.entry_text(), end="")                        # return 4 1 ok | Done | Pool 0 ConnectionCheckedIn a:27017 1
