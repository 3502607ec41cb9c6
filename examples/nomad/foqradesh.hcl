# One run of a cluster under Nomad, a group for each node, each on a machine of its own. A node is never started a second time within a run:
# its task is not restarted, its group is not moved to another machine, and where it is started all the same, the mark in the volume `marks`
# makes gb_peer end with status 1. For the next run give another number and another key of the cluster:
#
#     key() { od -An -tx1 -N32 /dev/urandom | tr -d ' \n'; }
#     nomad var put nomad/jobs/chat-run-1 cluster="$(key)" admin="$(cat admin-key)"
#     nomad job run -var name=chat -var run=1 foqradesh.hcl
#
# Each machine has gb_peer in /usr/local/bin and a host volume `foqradesh-marks`: a folder that stays, to which the user nobody can write.
variable "name" {
  type    = string
  default = "chat"
}

variable "run" {
  type        = number
  description = "the run's number: one more than that of the run before"
}

# Where the nodes are, node 0 first. Clusters that share a machine have ports of their own.
variable "machines" {
  type = list(object({ hostname = string, address = string, packets = number, sessions = number, status = number }))
  default = [
    { hostname = "db1", address = "10.0.0.1", packets = 24000, sessions = 24064, status = 9100 },
    { hostname = "db2", address = "10.0.0.2", packets = 24000, sessions = 24064, status = 9100 },
    { hostname = "db3", address = "10.0.0.3", packets = 24000, sessions = 24064, status = 9100 },
  ]
}

job "foqradesh" {
  id   = "${var.name}-run-${var.run}"
  name = "${var.name}-run-${var.run}"
  type = "batch"

  dynamic "group" {
    for_each = var.machines
    labels   = ["node-${group.key}"]

    content {
      count = 1

      constraint {
        attribute = "${attr.unique.hostname}"
        value     = group.value.hostname
      }

      restart {
        attempts = 0
        mode     = "fail"
      }

      reschedule {
        attempts  = 0
        unlimited = false
      }

      volume "marks" {
        type   = "host"
        source = "foqradesh-marks"
      }

      network {
        mode = "host"
        port "packets" {
          static = group.value.packets
        }
        port "sessions" {
          static = group.value.sessions
        }
        port "status" {
          static = group.value.status
        }
      }

      task "node" {
        driver = "exec"

        config {
          command = "/bin/sh"
          args    = ["-c", "exec /usr/local/bin/gb_peer --cluster \"$NOMAD_TASK_DIR/cluster.toml\" --node ${group.key} --dir /marks --remote-sessions --status 0.0.0.0:${group.value.status} <\"$NOMAD_SECRETS_DIR/keys\""]
        }

        volume_mount {
          volume      = "marks"
          destination = "/marks"
        }

        # A change of a template would restart the task, if it were not said that nothing is done.
        template {
          destination = "local/cluster.toml"
          change_mode = "noop"
          data        = <<EOF
run = ${var.run}
version = 3
%{for machine in var.machines~}

[[node]]
packets = "${machine.address}:${machine.packets}"
sessions = "${machine.address}:${machine.sessions}"
%{endfor~}
EOF
        }

        template {
          destination = "secrets/keys"
          change_mode = "noop"
          data        = <<EOF
{{with nomadVar "nomad/jobs/${var.name}-run-${var.run}"}}{{.cluster}}
{{.admin}}
{{end}}
EOF
        }

        # tools/capacity.py tells what a node needs. No limit of cpu: a node that is held back may be noticed as crashed.
        resources {
          cpu    = 1000
          memory = 2048
        }
      }
    }
  }
}
