# What an office reports: reports that are published and approved, requests and their answers, alarms.
publish(report: int)
approve(report: int, who: string)
request(id: int, who: string)
grant(id: int)
alarm(room: string)
