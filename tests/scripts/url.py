scheme = "https"
host = "example.org"
path = "/a/b"
url = scheme + "://" + host + path
print(url)
print(url + "?q=" + 'x' + "#top")
