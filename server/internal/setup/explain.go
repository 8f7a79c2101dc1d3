package setup

import (
	"fmt"
	"io"
	"path/filepath"
	"strings"
)

// packaged is the folder from which systemd's unit of the package reads the options.
const packaged = "/etc/rbac"

// explain writes what was made, what to type next, and how to undo it.
func (o Options) explain(out io.Writer, files []file, tokens map[string]string) error {
	paths := make([]string, 0, len(files))
	for _, one := range files {
		paths = append(paths, one.path)
	}
	curl := "curl"
	if len(o.Hosts) > 0 && !o.WantsRequest {
		curl += " --cacert " + o.path("crt")
	}
	var text strings.Builder
	line := func(format string, words ...any) { fmt.Fprintf(&text, format+"\n", words...) }
	line("Made: %s", strings.Join(paths, " "))
	if o.WantsRequest {
		line("\nLet your authority sign %s, and save the certificate as %s.", o.path("csr"), o.path("crt"))
	}
	line("\nStart the front:\n  %s", o.start())
	line("\nA session ends after %s in which nobody uses it, and %s after it was made. %s has these options.", sessionIdle, sessionAge, o.path("conf"))
	if url := o.url(); url != "" {
		line("\nThe console is %s/console/", url)
		line("\nThe token of the administrator, who may do everything. It is shown this once:\n  %s", tokens[Administrator])
		line("\nAdd a user:\n  %s -H 'Authorization: Bearer %s' -d '{\"user\":\"ann\"}' %s/v1/addUser", curl, tokens[Administrator], url)
		line("\nFor Prometheus, whose token may only read metrics:\n%s", o.scraping(url, tokens[Monitor]))
	}
	line("\nUndo this. The office stays where it is:\n  %srm %s", o.stop(), strings.Join(paths, " "))
	_, err := io.WriteString(out, text.String())
	return err
}

func (o Options) start() string {
	if o.Folder == packaged {
		return fmt.Sprintf("systemctl enable %[1]s && systemctl restart %[1]s", o.units())
	}
	return fmt.Sprintf("rbac-node serve --office %s %s", filepath.Join(o.Folder, o.Office), o.options())
}

// stop returns what stops the front before its files are removed, so that it never answers without its callers.
func (o Options) stop() string {
	if o.Folder == packaged {
		return fmt.Sprintf("systemctl disable --now %s && ", o.units())
	}
	return ""
}

// units returns systemd's units of the office: its front and its backups.
func (o Options) units() string {
	return fmt.Sprintf("rbac-node@%[1]s rbac-backup@%[1]s.timer", o.Office)
}

// scraping returns what Prometheus has to know.
func (o Options) scraping(url, token string) string {
	scheme, host, _ := strings.Cut(url, "://")
	lines := []string{
		"  - job_name: rbac",
		fmt.Sprintf("    scheme: %s", scheme),
		fmt.Sprintf("    authorization: {credentials: %s}", token),
		fmt.Sprintf("    static_configs: [{targets: [%q]}]", host),
	}
	if len(o.Hosts) > 0 && !o.WantsRequest {
		lines = append(lines, fmt.Sprintf("    tls_config: {ca_file: %s}", o.path("crt")))
	}
	return strings.Join(lines, "\n")
}
