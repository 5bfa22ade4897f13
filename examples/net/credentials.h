// Who a client is: a user of a database, and the password.
#ifndef NET_CREDENTIALS_H
#define NET_CREDENTIALS_H

enum { USER_ROOM = 256, SOURCE_ROOM = 65 };

struct credentials {
    char user[USER_ROOM], password[USER_ROOM]; // no user: nothing is proved
    char source[SOURCE_ROOM];                  // the database of the user
};

#endif
