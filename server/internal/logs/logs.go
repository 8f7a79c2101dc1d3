// Package logs writes each event as a line of JSON.
package logs

import (
	"fmt"
	"io"
	"os"
	"syscall"
	"time"

	"go.uber.org/zap"
	"go.uber.org/zap/buffer"
	"go.uber.org/zap/zapcore"
)

// A Logger writes events. Many goroutines may use it.
type Logger struct{ sugared *zap.SugaredLogger }

// New returns a logger. Each line has the fixed fields: names, each followed by its value.
func New(out io.Writer, fixed ...any) *Logger {
	var encoder zapcore.Encoder = zapcore.NewJSONEncoder(zapcore.EncoderConfig{
		LevelKey: "level", TimeKey: "ts", MessageKey: "msg", EncodeLevel: zapcore.LowercaseLevelEncoder, EncodeTime: encodeTime,
		EncodeDuration: zapcore.SecondsDurationEncoder,
	})
	if isJournal(out, os.Getenv("JOURNAL_STREAM")) {
		encoder = journalEncoder{encoder}
	}
	core := zapcore.NewCore(encoder, zapcore.Lock(zapcore.AddSync(out)), zapcore.InfoLevel)
	// If a line can't be written there is nowhere to report it.
	return &Logger{zap.New(core, zap.ErrorOutput(zapcore.AddSync(io.Discard))).Sugar().With(fixed...)}
}

// Info writes an event that is as it should be. The fields are names, each followed by its value.
func (l *Logger) Info(message string, fields ...any) { l.sugared.Infow(message, fields...) }

// Warn writes an event that an operator may want to look at.
func (l *Logger) Warn(message string, fields ...any) { l.sugared.Warnw(message, fields...) }

// Error writes an event that needs an operator.
func (l *Logger) Error(message string, fields ...any) { l.sugared.Errorw(message, fields...) }

func encodeTime(at time.Time, to zapcore.PrimitiveArrayEncoder) {
	to.AppendString(at.UTC().Format("2006-01-02T15:04:05.000Z"))
}

// isJournal reports whether a file is the one that systemd has connected to the journal, by its device and its number there.
func isJournal(out io.Writer, stream string) bool {
	file, is := out.(*os.File)
	if !is || stream == "" {
		return false
	}
	about, err := file.Stat()
	if err != nil {
		return false
	}
	stat, is := about.Sys().(*syscall.Stat_t)
	return is && stream == fmt.Sprintf("%d:%d", stat.Dev, stat.Ino)
}

// A journalEncoder begins each line with its level, which journald takes off.
type journalEncoder struct{ zapcore.Encoder }

// priorities are the levels as syslog numbers them.
var priorities = map[zapcore.Level]string{zapcore.InfoLevel: "<6>", zapcore.WarnLevel: "<4>", zapcore.ErrorLevel: "<3>"}

var buffers = buffer.NewPool()

func (e journalEncoder) Clone() zapcore.Encoder { return journalEncoder{e.Encoder.Clone()} }

func (e journalEncoder) EncodeEntry(entry zapcore.Entry, fields []zapcore.Field) (*buffer.Buffer, error) {
	line, err := e.Encoder.EncodeEntry(entry, fields)
	if err != nil {
		return nil, err
	}
	defer line.Free()
	out := buffers.Get()
	out.AppendString(priorities[entry.Level])
	_, err = out.Write(line.Bytes())
	return out, err
}
