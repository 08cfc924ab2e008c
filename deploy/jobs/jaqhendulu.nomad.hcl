# One journal on Nomad: a group of one, which has the program, nginx before it (the program listens at the group's own
# 127.0.0.1 alone), the morning's day and the hourly copy. Another journal is the same file with another name in the
# place of `books`. The volume must honour fsync, and is written by one machine at a time (single-node-writer).
#
# Once: nomad alloc exec -task copies ALLOCATION jaqhendulu /data/books.journal init
job "jaqhendulu-books" {
  type = "service"

  group "books" {
    count = 1

    # Where a machine is lost the group moves only by hand: two machines never work on one journal.
    reschedule {
      attempts  = 0
      unlimited = false
    }

    # It ends after its connections and comes again.
    restart {
      attempts = 10
      interval = "1m"
      delay    = "1s"
      mode     = "delay"
    }

    network {
      mode = "bridge"
      port "https" {
        static = 443
        to     = 443
      }
    }

    volume "journal" {
      type            = "csi"
      source          = "jaqhendulu-books"
      access_mode     = "single-node-writer"
      attachment_mode = "file-system"
    }

    volume "copies" {
      type            = "csi"
      source          = "jaqhendulu-books-copies"
      access_mode     = "single-node-writer"
      attachment_mode = "file-system"
    }

    task "program" {
      driver       = "docker"
      user         = "1000"
      kill_timeout = "2s"
      config {
        image    = "jaqhendulu:@VERSION@"
        work_dir = "/data"
        command  = "/bin/sh"
        args     = ["-c", "while jaqhendulu books.journal serve 18080 1000000; do :; done"]
      }
      volume_mount {
        volume      = "journal"
        destination = "/data"
      }
    }

    task "morning" {
      driver = "docker"
      user   = "1000"
      env {
        TZ = "America/New_York"
      }
      config {
        image   = "jaqhendulu:@VERSION@"
        command = "/bin/sh"
        args    = ["-c", "while :; do [ $(date +%H) -lt 5 ] || /usr/libexec/jaqhendulu/day 18080; sleep 3600; done"]
      }
    }

    task "copies" {
      driver = "docker"
      user   = "1000"
      config {
        image   = "jaqhendulu:@VERSION@"
        command = "/bin/sh"
        args    = ["-c", "while :; do /usr/libexec/jaqhendulu/backup /data/books.journal /copies 48; sleep 3600; done"]
      }
      volume_mount {
        volume      = "journal"
        destination = "/data"
      }
      volume_mount {
        volume      = "copies"
        destination = "/copies"
      }
    }

    task "nginx" {
      driver = "docker"
      config {
        image = "nginx:1.22"
        ports = ["https"]
        volumes = [
          "/etc/jaqhendulu/jaqhendulu.conf:/etc/nginx/conf.d/jaqhendulu.conf:ro",
          "/etc/jaqhendulu:/etc/jaqhendulu:ro",
          "/usr/share/jaqhendulu:/usr/share/jaqhendulu:ro",
        ]
      }
    }
  }
}
