// A session of QuickFIX, of the gateway and of the client that tests it. Both poll: there is one thread.
#pragma once
#include <map>
#include <string>
#include <quickfix/Application.h>
#include <quickfix/FileStore.h>
#include <quickfix/FixFieldNumbers.h>
#include <quickfix/Session.h>
#include <quickfix/SessionSettings.h>

namespace tag = FIX::FIELD;
using Fields = std::map<int, std::string>;

inline std::string text_of(const FIX::FieldMap &message, int field) {
    return message.isSetField(field) ? message.getField(field) : "";
}

// The message with these fields, without those that are empty.
template <class Message>
Message &with(Message &message, const Fields &fields) {
    for (const auto &field : fields)
        if (!field.second.empty())
            message.setField(field.first, field.second);
    return message;
}

inline FIX::Message message_of(const std::string &type, const Fields &fields) {
    FIX::Message message;
    message.getHeader().setField(tag::MsgType, type);
    return with(message, fields);
}

class Application : public FIX::NullApplication {
  public:
    virtual void received(const FIX::Message &message, const std::string &type) = 0;
    void fromApp(const FIX::Message &message,
                 const FIX::SessionID &) throw(FIX::FieldNotFound, FIX::IncorrectDataFormat, FIX::IncorrectTagValue,
                                               FIX::UnsupportedMessageType) override {
        received(message, message.getHeader().getField(tag::MsgType));
    }
};
