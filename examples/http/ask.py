import json, urllib.request

record = open("examples/unmarked/game.sgf", "rb").read()
question = "http://127.0.0.1:8642/status?all&quick&steps=2000&node=131"
request = urllib.request.Request(question, record, {"Content-Type": "text/plain"})
with urllib.request.urlopen(request) as answer:
    for line in answer:
        group = json.loads(line)
        if group["status"] == "dead":
            print(group["target"], group["word"])
