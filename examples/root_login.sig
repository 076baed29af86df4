# What the hosts report: who logged in where, who became root, who left.
login(host:string, who:string)
root_login(host:string, from:string)
logout(host:string, who:string)
reboot(host:string)
